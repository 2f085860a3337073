//! Large jobs of every kind that a tank's scan may be: closed, noisy, open, without order, degenerate. None has a triangle off the
//! grid (document 02, §6), but for the ladder that `with_ladder` puts into one. Those of the kind `strip` are strips, which the Rust is
//! given; the library is given the list of their triangles (§7). For Normal signs (§8) there are open decks besides.

use crate::random::Random;
use crate::shapes::{self, Mesh};
use model::bounds::off_grid;
use model::convert::as_list;
use model::grid::{Grid, AXES};
use model::topology::{self, Topology};
use model::{Job, SignMethod};

type Kind = (&'static str, fn(&Grid, u32, &mut Random) -> Mesh);

const KINDS: [Kind; 10] = [
    ("closed-tank", |grid, n, r| tank(grid, n, 0.9, r)),
    ("noisy-scan", noisy),
    ("open-tank", open),
    ("soup", soup),
    ("degenerate", degenerate),
    ("repeated-facets", repeated),
    ("sphere", sphere),
    ("strip", strip),
    ("lattice-tank", lattice),
    ("tank-cut-at-box", |grid, n, r| cut(grid, tank(grid, n, 1.4, r))),
];

/// Decks that are scanned from above, and have no closed hull.
const DECKS: [Kind; 3] = [
    ("open-deck", |grid, n, r| any_deck(grid, n, 0.0, r)),
    ("noisy-deck", |grid, n, r| {
        let noise = [0.01, 0.1, 0.5][r.below(3) as usize];
        any_deck(grid, n, noise, r)
    }),
    ("deck-on-pontoons", on_pontoons),
];

/// The kinds whose jobs are asked for with these signs.
pub fn kinds(sign: SignMethod) -> Vec<Kind> {
    match sign {
        SignMethod::Raycast => KINDS.to_vec(),
        SignMethod::Normal => [&DECKS[..], &KINDS].concat(),
    }
}

/// A job of the kind with these signs, of about so many triangles.
pub fn make(kind: Kind, sign: SignMethod, grid: Grid, triangles: u32, r: &mut Random) -> Job {
    Job { sign, ..of_kind(kind, grid, triangles, r) }
}

fn of_kind((name, mesh): Kind, grid: Grid, triangles: u32, r: &mut Random) -> Job {
    let Mesh { vertices, mut triangles } = mesh(&grid, triangles, r);
    let mut vertices: Vec<[f32; 3]> = vertices.iter().map(|v| place(&grid, *v)).collect();
    bring_to_box(&grid, &mut vertices, &triangles);
    if name == "strip" {
        // Its mesh has a triangle for each vertex number after the second, in order.
        let indices = r.once_in(2).then(|| (0..vertices.len() as u32).collect());
        return lifted(grid, Topology::Strip, vertices, indices);
    }
    if r.once_in(2) {
        for i in (1..triangles.len()).rev() {
            triangles.swap(i, r.below(i as u64 + 1) as usize);
        }
    }
    if r.once_in(4) {
        // As a binary STL has it: corners one after the other, and no indices.
        vertices = triangles.iter().flatten().map(|&v| vertices[v as usize]).collect();
        return lifted(grid, Topology::List, vertices, None);
    }
    let indices = triangles.into_iter().flatten().collect();
    lifted(grid, Topology::List, vertices, Some(indices))
}

/// What lies off the grid comes to touch its box: on such an axis all three corners go to the side. That takes no vertex out
/// of the box, so no other triangle off it. Tanks near the box and noisy scans have a few such facets. A closed hull stays closed by
/// it; a facet that sticks out still does, unless it shares the corner.
fn bring_to_box(grid: &Grid, vertices: &mut [[f32; 3]], triangles: &[[u32; 3]]) {
    let (low, high) = (grid.box_minimum(), grid.box_maximum());
    for triangle in triangles {
        for axis in AXES {
            let all = |test: &dyn Fn(f32) -> bool| triangle.iter().all(|&v| test(vertices[v as usize][axis]));
            let side = if all(&|x| x < low[axis]) {
                low[axis]
            } else if all(&|x| x > high[axis]) {
                high[axis]
            } else {
                continue;
            };
            triangle.iter().for_each(|&v| vertices[v as usize][axis] = side);
        }
    }
}

/// The job, its triangles listed, with three plates more, one across each axis, right across the grid and each on a layer of centres: the cells on
/// them are at +0, or at -0 where two of their crossing counts are odd, if rounding does not move the closest point.
pub fn with_plates(job: &Job, r: &mut Random) -> Job {
    let mut job = as_list(job);
    let given = job.indices.take().unwrap_or_else(|| (0..job.vertices.len() as u32).collect());
    let mut indices = given[..given.len() / 3 * 3].to_vec();
    for axis in 0..3 {
        let (u, v) = ((axis + 1) % 3, (axis + 2) % 3);
        let layer = job.grid.centre_on(axis, r.below(u64::from(job.grid.count[axis])) as u32);
        let n = job.vertices.len() as u32;
        for (right, back) in [(false, false), (true, false), (true, true), (false, true)] {
            let end = |axis: usize, far: bool| if far { f64::from(job.grid.count[axis]) - 0.625 } else { -0.375 };
            let mut at = [0.0; 3];
            (at[u], at[v]) = (end(u, right), end(v, back));
            let mut corner = place(&job.grid, at);
            corner[axis] = layer;
            job.vertices.push(corner);
        }
        indices.extend([0, 1, 2, 0, 2, 3].map(|k| n + k));
    }
    Job { indices: Some(indices), ..job }
}

/// The job with one triangle more, a cell beyond the grid's box, as a ladder that was placed too far. It is the first, the last or any
/// other. In a strip, triangles with corners of both lead to it and away from it.
pub fn with_ladder(job: &Job, r: &mut Random) -> Job {
    let mut job = job.clone();
    let (axis, high) = (r.below(3) as usize, r.once_in(2));
    let corners = [0; 3].map(|_| {
        let mut at = job.grid.count.map(|n| f64::from(n) * part(r) - 0.5);
        at[axis] = if high { f64::from(job.grid.count[axis]) + 0.5 + part(r) } else { -1.5 - part(r) };
        place(&job.grid, at)
    });
    let triangles = topology::triangles(&job).len();
    let number = match r.below(4) {
        0 => 0,
        1 => triangles,
        _ => r.below(triangles as u64 + 1) as usize,
    };
    let length = job.indices.as_ref().map_or(job.vertices.len(), Vec::len);
    let at = match job.topology {
        _ if number == triangles => length,
        Topology::List => 3 * number,
        Topology::Strip => number,
    };
    let n = job.vertices.len() as u32;
    match &mut job.indices {
        Some(indices) => {
            indices.splice(at..at, [n, n + 1, n + 2]);
            job.vertices.extend(corners);
        }
        None => drop(job.vertices.splice(at..at, corners)),
    }
    job
}

/// A strip of exactly so many triangles, without indices.
pub fn walk(grid: Grid, triangles: u32, r: &mut Random) -> Job {
    let Mesh { vertices, triangles } = strip(&grid, triangles, r);
    let mut vertices: Vec<[f32; 3]> = vertices.iter().map(|v| place(&grid, *v)).collect();
    bring_to_box(&grid, &mut vertices, &triangles);
    lifted(grid, Topology::Strip, vertices, None)
}

/// A job of a mesh in cell units, with its triangles in order and indices.
pub fn plain(grid: Grid, Mesh { vertices, triangles }: Mesh) -> Job {
    let vertices = vertices.iter().map(|v| place(&grid, *v)).collect();
    lifted(grid, Topology::List, vertices, Some(triangles.into_iter().flatten().collect()))
}

fn lifted(grid: Grid, topology: Topology, vertices: Vec<[f32; 3]>, indices: Option<Vec<u32>>) -> Job {
    Job { grid, topology, sign: SignMethod::Raycast, vertices, indices, queue: u32::MAX, pops: u32::MAX, edition: None }
}

/// A grid of these counts: plain or odd measures, cubes or not.
pub fn grid(count: [u32; 3], r: &mut Random) -> Grid {
    let (first, size) = match r.below(5) {
        0 => ([0.0; 3], [1.0; 3]),
        1 => ([0.5; 3], [0.5; 3]),
        2 => ([0; 3].map(|_| r.unit() * 10.0), [0.1; 3]),
        3 => ([0; 3].map(|_| r.unit() * 100.0), [0; 3].map(|_| 0.05 + r.unit().abs() * 0.1)),
        _ => ([0; 3].map(|_| r.unit() * 1000.0), [0; 3].map(|_| 0.5 + r.unit().abs() * 3.0)),
    };
    Grid { first, size, count, upright: None }
}

/// A place in cell units as a point.
fn place(grid: &Grid, at: [f64; 3]) -> [f32; 3] {
    [0, 1, 2].map(|axis| (f64::from(grid.first[axis]) + at[axis] * f64::from(grid.size[axis])) as f32)
}

fn part(r: &mut Random) -> f64 {
    (f64::from(r.unit()) + 1.0) / 2.0
}

/// The middle of the grid, moved by up to a cell, and half its extent times a part.
fn body(grid: &Grid, size: f64, r: &mut Random) -> ([f64; 3], [f64; 3]) {
    let half = grid.count.map(|n| f64::from(n) / 2.0 * size * (0.7 + 0.3 * part(r)));
    let middle = grid.count.map(|n| (f64::from(n) - 1.0) / 2.0 + f64::from(r.unit()));
    (middle, half)
}

/// An upright tank of panels, closed.
pub fn tank(grid: &Grid, triangles: u32, size: f64, r: &mut Random) -> Mesh {
    let (middle, half) = body(grid, size, r);
    let segments = (f64::from(triangles / 2).sqrt() * (0.7 + 0.6 * part(r))).max(3.0) as u32;
    let rows = (triangles / 2 / segments).max(3);
    let rings = 1 + r.below(u64::from(rows / 3)) as u32;
    // Rows of vertices: the rings but the axis, twice, and the wall's.
    let bands = (rows + 1).saturating_sub(2 * rings).max(1);
    shapes::turned(middle, &shapes::tank_profile(half[0].min(half[1]), half[2], rings, bands), segments)
}

/// What a section at the grid's box leaves of a mesh: the facets that are not off it. A tank that is larger than the grid is open
/// then, and some of its vertices are used no more.
fn cut(grid: &Grid, mut mesh: Mesh) -> Mesh {
    let vertices = &mesh.vertices;
    mesh.triangles.retain(|t| !off_grid(grid, t.map(|v| place(grid, vertices[v as usize]))));
    mesh
}

fn noisy(grid: &Grid, triangles: u32, r: &mut Random) -> Mesh {
    let noise = [0.01, 0.1, 0.5, 1.5][r.below(4) as usize];
    scan(grid, triangles, noise, r)
}

/// A tank as a scanner sees it: every vertex off by up to so many cells.
pub fn scan(grid: &Grid, triangles: u32, noise: f64, r: &mut Random) -> Mesh {
    let mut mesh = tank(grid, triangles, 0.9, r);
    for vertex in &mut mesh.vertices {
        *vertex = vertex.map(|x| x + noise * f64::from(r.unit()));
    }
    mesh
}

/// A scan without its roof, or with facets missing here and there.
fn open(grid: &Grid, triangles: u32, r: &mut Random) -> Mesh {
    let mut mesh = noisy(grid, triangles, r);
    if r.once_in(2) {
        return without_roof(mesh);
    }
    let once_in = 2 + r.below(30);
    mesh.triangles.retain(|_| !r.once_in(once_in));
    mesh
}

pub fn without_roof(mut mesh: Mesh) -> Mesh {
    let top = mesh.vertices.iter().map(|v| v[2]).fold(f64::MIN, f64::max) - 1.0;
    let vertices = &mesh.vertices;
    mesh.triangles.retain(|t| t.iter().any(|&v| vertices[v as usize][2] < top));
    mesh
}

/// The triangles are smaller the more there are.
fn soup(grid: &Grid, triangles: u32, r: &mut Random) -> Mesh {
    let reach = [0.3, 1.0, 3.0, if triangles < 3_000 { 10.0 } else { 3.0 }][r.below(4) as usize];
    soup_of(grid, triangles, reach, r)
}

/// Triangles anywhere on the grid, with corners up to so many cells from their middle on each axis; many stick out of it.
///
/// Those that are off the grid are drawn again once all have been drawn, so that the others do not depend on them.
pub fn soup_of(grid: &Grid, triangles: u32, reach: f64, r: &mut Random) -> Mesh {
    let draw = |r: &mut Random| {
        let near = grid.count.map(|n| (f64::from(n) + 4.0) * part(r) - 2.0);
        [0; 3].map(|_| near.map(|x| x + reach * f64::from(r.unit())))
    };
    let mut facets: Vec<_> = (0..triangles).map(|_| draw(r)).collect();
    for facet in &mut facets {
        while off_grid(grid, facet.map(|corner| place(grid, corner))) {
            *facet = draw(r);
        }
    }
    let triangles = (0..triangles).map(|n| [3 * n, 3 * n + 1, 3 * n + 2]).collect();
    Mesh { vertices: facets.into_flattened(), triangles }
}

/// A scan with facets that have no area: equal vertex numbers, equal corners, corners on a line, slivers.
fn degenerate(grid: &Grid, triangles: u32, r: &mut Random) -> Mesh {
    let mut mesh = noisy(grid, triangles, r);
    for i in 0..mesh.triangles.len() {
        let [a, b, c] = mesh.triangles[i];
        let at = |v: u32| mesh.vertices[v as usize];
        let new = match r.below(24) {
            0 => at(a),
            1 => at(b),
            2 => [0, 1, 2].map(|axis| (at(a)[axis] + at(b)[axis]) / 2.0),
            3 => at(b).map(|x| x + 1e-6 * f64::from(r.unit())),
            4 => {
                mesh.triangles[i] = [[a, a, b], [a, b, b], [a, b, a], [a, a, a]][r.below(4) as usize];
                continue;
            }
            _ => continue,
        };
        mesh.vertices.push(new);
        let d = mesh.vertices.len() as u32 - 1;
        mesh.triangles[i] = [[a, b, d], [a, d, b], [d, a, b], [c, d, d]][r.below(4) as usize];
    }
    mesh
}

/// A scan with facets that come again, as they are or turned round.
fn repeated(grid: &Grid, triangles: u32, r: &mut Random) -> Mesh {
    let mut mesh = noisy(grid, triangles * 4 / 5, r);
    for _ in 0..triangles / 5 {
        let [a, b, c] = mesh.triangles[r.below(mesh.triangles.len() as u64) as usize];
        mesh.triangles.push([[a, b, c], [b, c, a], [c, b, a], [a, c, b]][r.below(4) as usize]);
    }
    mesh
}

fn sphere(grid: &Grid, triangles: u32, r: &mut Random) -> Mesh {
    let (middle, half) = body(grid, 0.95, r);
    let segments = f64::from(triangles / 2).sqrt().max(3.0) as u32;
    shapes::sphere(middle, half, (triangles / 2 / segments).max(2) + 1, segments)
}

/// A walk through the grid: each triangle has the next vertex.
fn strip(grid: &Grid, triangles: u32, r: &mut Random) -> Mesh {
    let mut mesh = Mesh::default();
    let mut at = grid.count.map(|n| f64::from(n) / 2.0);
    let step = 0.5 + 2.0 * part(r);
    for n in 0..triangles + 2 {
        for axis in 0..3 {
            let end = f64::from(grid.count[axis]) + 1.0;
            at[axis] = (at[axis] + step * f64::from(r.unit())).clamp(-2.0, end);
        }
        mesh.vertices.push(at);
        if n > 1 {
            mesh.triangles.push([n - 2, n - 1, n]);
        }
    }
    mesh
}

/// A tank whose vertices lie on cell centres and halfway between: rays meet edges and corners, distances are equal.
fn lattice(grid: &Grid, triangles: u32, r: &mut Random) -> Mesh {
    let mut mesh = tank(grid, triangles, 0.9, r);
    for vertex in &mut mesh.vertices {
        *vertex = vertex.map(|x| (x * 2.0).round() / 2.0);
    }
    mesh
}

/// A deck at any height, or on a layer of centres, level or gently wavy.
fn any_deck(grid: &Grid, triangles: u32, noise: f64, r: &mut Random) -> Mesh {
    let z = f64::from(grid.count[2]);
    let level = (z - 1.0) * (0.2 + 0.6 * part(r));
    let (level, swell) = match r.below(3) {
        0 => (level.round(), 0.0),
        1 => (level, 0.0),
        _ => (level, z / 8.0 * part(r)),
    };
    deck(grid, triangles, [level, swell], noise, r)
}

/// A deck across the grid as it is scanned from above, at this level with waves so high, and every vertex off by up to so many cells.
pub fn deck(grid: &Grid, triangles: u32, [level, swell]: [f64; 2], noise: f64, r: &mut Random) -> Mesh {
    let [x, y, _] = grid.count.map(f64::from);
    let panels = (f64::from(triangles / 2).sqrt() as u32).max(1);
    let waves = 1.0 + 3.0 * part(r);
    let mut mesh = Mesh::default();
    for i in 0..=panels {
        for j in 0..=panels {
            let [s, t] = [i, j].map(|n| f64::from(n) / f64::from(panels));
            let height = level + swell * (wave(waves * s) - wave(waves * t));
            let at = [s * (x - 0.2) - 0.4, t * (y - 0.2) - 0.4, height];
            mesh.vertices.push(at.map(|at| at + noise * f64::from(r.unit())));
        }
    }
    for (i, j) in (0..panels).flat_map(|i| (0..panels).map(move |j| (i, j))) {
        let [a, d] = [i, i + 1].map(|i| i * (panels + 1) + j);
        mesh.triangles.extend([[a, d, d + 1], [a, d + 1, a + 1]]);
    }
    mesh
}

/// A wave between -1 and 1 that is 0 at whole numbers, and up and down between them in turn.
fn wave(at: f64) -> f64 {
    let (part, up) = (at.fract(), if at as i64 % 2 == 0 { 1.0 } else { -1.0 });
    up * 4.0 * part * (1.0 - part)
}

/// A deck with closed pontoons below it, a third of the triangles theirs.
fn on_pontoons(grid: &Grid, triangles: u32, r: &mut Random) -> Mesh {
    let mut mesh = any_deck(grid, triangles * 2 / 3, 0.0, r);
    let [x, y, _] = grid.count.map(f64::from);
    let lowest = mesh.vertices.iter().map(|v| v[2]).fold(f64::MAX, f64::min);
    let pontoons = 1 + r.below(4) as u32;
    for _ in 0..pontoons {
        let (radius, half) = (x.min(y) / 8.0, (lowest + 0.4).max(0.2) / 3.0);
        let middle = [x * (0.2 + 0.6 * part(r)), y * (0.2 + 0.6 * part(r)), lowest - half - 0.1];
        let segments = (f64::from(triangles / 6 / pontoons).sqrt() as u32).max(3);
        let hull = shapes::turned(middle, &shapes::tank_profile(radius, half, 1, segments), segments);
        let n = mesh.vertices.len() as u32;
        mesh.vertices.extend(hull.vertices);
        mesh.triangles.extend(hull.triangles.iter().map(|t| t.map(|v| v + n)));
    }
    mesh
}
