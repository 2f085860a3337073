//! Jobs with Normal signs (document 02, §8): open decks as a scanner sees them from above, and what that request turns on. A cell has its sign
//! from the facet that it names. So it matters which of two facets it takes whose magnitudes are alike, what becomes of a centre in the plane
//! of a facet, where the dot is exactly 0, and in which order the queue is taken. Beside these stand the kinds of the other sets with Normal
//! signs, and texts whose sign line is spoiled. A kind that has ways takes them in turn.

use crate::inside::{self, ends, hull, roomy_grid, triangle, within};
use crate::kinds::{self, job, join, place, shuffle, Make, BEYOND};
use crate::random::Random;
use crate::shapes::{self, Mesh};
use model::geometry::{cross, dot, sub, Point};
use model::grid::Grid;
use model::topology::{self, Topology};
use model::{Job, SignMethod};

pub const KINDS: [(&str, Make); 26] = [
    // Open decks.
    ("deck-flat", |r| deck(r, flat, None)),
    ("deck-wavy", |r| deck(r, wavy, None)),
    ("deck-folded", |r| deck(r, folded, None)),
    ("deck-with-rim", |r| {
        let (height, rim) = r.turn(&[(flat as Height, -0.6), (wavy, 0.4), (flat, 0.6), (wavy, -0.4)]);
        deck(r, height, Some(rim))
    }),
    ("deck-with-pontoons", deck_with_pontoons),
    // Facets whose magnitudes are alike and whose signs are not; and the queue's order.
    ("alike-by-floats", alike_by_floats),
    ("alike-near-zero", alike_near_zero),
    ("alike-both-sides", alike_both_sides),
    ("normal-alike-plates", |r| normal(inside::alike_plates(r))),
    ("normal-alike-soup", |r| normal(inside::alike_soup(r))),
    ("normal-queue-order", |r| normal(inside::queue_order(r))),
    // A dot of exactly 0, or nearly.
    ("centres-on-facets", centres_on_facets),
    ("centres-in-plane", centres_in_plane),
    ("centres-near-plane", centres_near_plane),
    ("normal-of-zero", normal_of_zero),
    // Meshes without order, and closed ones.
    ("normal-soup", |r| normal_of(r, &["soup", "soup-lattice", "one-triangle", "soup-beyond-grid"])),
    ("normal-hull", normal_hull),
    // What is refused, and what just not.
    ("normal-room-and-pops", room_and_pops),
    ("normal-nan", nan),
    ("normal-refused", refused),
    ("normal-at-limits", |r| normal_of(r, &LIMITS)),
    // The other sets, each of their kinds in turn.
    ("normal-base", |r| normal_of(r, &kinds::of_set(Some("base")))),
    ("normal-inside", |r| normal_of(r, &kinds::of_set(Some("inside")))),
    ("normal-off-grid", |r| normal_of(r, &kinds::of_set(Some("off-grid")))),
    ("normal-old", |r| normal_of(r, &[kinds::of_set(Some("old")), kinds::of_set(Some("long"))].concat())),
    // The text itself; the kind's job is spoiled afterwards.
    ("damaged-normal", |r| deck(r, flat, None)),
];

/// By name alone: the sign line itself, spoiled in each way, in a list and in a strip; and jobs beyond the job program's limits.
pub const ALONE: [(&str, Make); 3] = [
    ("damaged-sign", |r| normal_of(r, &["document-01"])),
    ("damaged-strip-sign", |r| normal_of(r, &["strip-box"])),
    ("large-normal", |r| normal_of(r, &["large-sphere", "large-tank", "large-soup"])),
];

/// Kinds that lie off the grid by design.
pub const OFF_GRID: [&str; 2] = ["normal-refused", "normal-off-grid"];

/// The kinds at the job program's limits, and about them.
const LIMITS: [&str; 8] = [
    "cells-at-limit",
    "vertices-at-limit",
    "queue-at-limit",
    "list-at-limit",
    "indices-at-limit",
    "beyond-limits",
    "counts-that-wrap",
    "large-numbers",
];

fn normal(job: Job) -> Job {
    Job { sign: SignMethod::Normal, ..job }
}

/// A job of these kinds, in turn.
fn normal_of(r: &mut Random, of: &[&str]) -> Job {
    normal(kinds::find(r.turn(of)).expect("a kind of another set")(r))
}

/// A grid of few cells: what these jobs are about shows in some of them. Half the time one axis has more.
fn few_cells(r: &mut Random) -> Grid {
    Grid { count: counts(r), ..roomy_grid(r) }
}

fn counts(r: &mut Random) -> [u32; 3] {
    let mut count = [0; 3].map(|_| r.between(2, 4));
    if r.once_in(2) {
        count[r.pick(&[0, 1, 2, 2])] = r.between(5, 9);
    }
    count
}

/// A job with room for all entries.
pub fn roomy(grid: Grid, mesh: &Mesh, r: &mut Random) -> Job {
    normal(Job { queue: 2_048, ..job(grid, mesh, r) })
}

fn turn_round(triangle: &mut [u32; 3]) {
    triangle.swap(1, 2);
}

// Open decks.

/// How high a deck lies at a place of the unit square, in cells.
pub type Height = fn(f64, &mut Random) -> Box<dyn Fn([f64; 2]) -> f64>;

/// A level within so many cells: that of a layer of centres, halfway between two, or any.
fn level(cells: f64, r: &mut Random) -> f64 {
    let layers = cells as u64;
    match r.below(3) {
        0 => r.below(layers) as f64,
        1 => r.below(layers) as f64 - 0.5,
        _ => (f64::from(r.unit()) + 1.0) / 2.0 * cells - 0.5,
    }
}

pub fn flat(cells: f64, r: &mut Random) -> Box<dyn Fn([f64; 2]) -> f64> {
    let level = level(cells, r);
    Box::new(move |_| level)
}

/// Up along one side of the square and down along the other.
pub fn wavy(cells: f64, r: &mut Random) -> Box<dyn Fn([f64; 2]) -> f64> {
    let (level, swell) = (level(cells, r), f64::from(r.pick(&[0.05, 0.2, 0.6_f32])));
    Box::new(move |[s, t]| level + 4.0 * swell * (s * (1.0 - s) - t * (1.0 - t)))
}

/// A ridge or a valley halfway along.
fn folded(cells: f64, r: &mut Random) -> Box<dyn Fn([f64; 2]) -> f64> {
    let (level, slope) = (level(cells, r), f64::from(r.pick(&[-4.0, -1.0, 1.0, 4.0_f32])));
    Box::new(move |[s, _]| level + slope * (s - 0.5).abs())
}

fn deck(r: &mut Random, height: Height, rim: Option<f64>) -> Job {
    let grid = few_cells(r);
    let mesh = sheet(&grid, up(r), height, rim, r);
    roomy(grid, &mesh, r)
}

/// The axis along which a deck is looked at from above: z half of the time.
fn up(r: &mut Random) -> usize {
    r.pick(&[2, 2, 0, 1])
}

/// A sheet across the axis, of panels of two facets each that look up along it. With a rim there are walls along its edge, so many cells up or
/// down, that look outwards. Once in four all of it looks the other way, and once in four a single facet does.
pub fn sheet(grid: &Grid, axis: usize, height: Height, rim: Option<f64>, r: &mut Random) -> Mesh {
    let (u, v) = ((axis + 1) % 3, (axis + 2) % 3);
    let (low, high) = plan(grid, r);
    let height = height(f64::from(grid.count[axis]), r);
    // Halfway along u there is an edge.
    let [along, across] = [2 * r.between(1, 2), r.between(1, 3)];
    let mut mesh = Mesh::default();
    for i in 0..=along {
        for j in 0..=across {
            let [s, t] = [f64::from(i) / f64::from(along), f64::from(j) / f64::from(across)];
            let mut at = [0.0; 3];
            (at[u], at[v]) = (low[u] + s * (high[u] - low[u]), low[v] + t * (high[v] - low[v]));
            at[axis] = within(grid, axis, height([s, t]));
            mesh.vertices.push(at);
        }
    }
    let number = |i: u32, j: u32| i * (across + 1) + j;
    for i in 0..along {
        for j in 0..across {
            let [a, b, c, d] = [number(i, j), number(i + 1, j), number(i + 1, j + 1), number(i, j + 1)];
            mesh.triangles.extend(r.pick(&[[[a, b, c], [a, c, d]], [[a, b, d], [b, c, d]]]));
        }
    }
    if let Some(rim) = rim {
        let edge = (0..along).map(|i| number(i, 0)).chain((0..across).map(|j| number(along, j)));
        let back = (0..along).map(|i| number(along - i, across)).chain((0..across).map(|j| number(0, across - j)));
        walls(&mut mesh, grid, axis, &edge.chain(back).collect::<Vec<_>>(), rim);
    }
    if r.once_in(4) {
        mesh.triangles.iter_mut().for_each(turn_round);
    }
    if r.once_in(4) {
        let one = r.below(mesh.triangles.len() as u64) as usize;
        turn_round(&mut mesh.triangles[one]);
    }
    mesh
}

/// Walls between an edge, which goes round to the left as seen from above, and the same edge so many cells higher.
fn walls(mesh: &mut Mesh, grid: &Grid, axis: usize, edge: &[u32], rise: f64) {
    let n = mesh.vertices.len() as u32;
    for &corner in edge {
        let mut at = mesh.vertices[corner as usize];
        at[axis] = within(grid, axis, at[axis] + rise);
        mesh.vertices.push(at);
    }
    for (here, &corner) in edge.iter().enumerate() {
        let next = (here + 1) % edge.len();
        let [mut low, mut high] = [[corner, edge[next]], [n + here as u32, n + next as u32]];
        if rise < 0.0 {
            std::mem::swap(&mut low, &mut high);
        }
        mesh.triangles.extend([[low[0], low[1], high[1]], [low[0], high[1], high[0]]]);
    }
}

/// What a sheet reaches over: nearly all of the grid, from centre to centre, or a part.
fn plan(grid: &Grid, r: &mut Random) -> ([f64; 3], [f64; 3]) {
    let (mut low, mut high) = ends(grid, r);
    match r.below(3) {
        0 => {}
        1 => (low, high) = ([0.0; 3], grid.count.map(|n| f64::from(n) - 1.0)),
        _ => {
            for axis in 0..3 {
                let part = f64::from(r.pick(&[0.25, 0.5, 0.75_f32])) * (high[axis] - low[axis]);
                if r.once_in(2) {
                    high[axis] -= part;
                } else {
                    low[axis] += part;
                }
            }
        }
    }
    (low, high)
}

/// A deck on closed pontoons, which hang from it, or a little below.
fn deck_with_pontoons(r: &mut Random) -> Job {
    let grid = few_cells(r);
    let axis = up(r);
    let mut mesh = sheet(&grid, axis, r.turn(&[flat as Height, wavy]), None, r);
    let top = mesh.vertices.iter().map(|v| v[axis]).fold(f64::MAX, f64::min);
    for _ in 0..r.between(1, 2) {
        let (mut low, mut high) = plan(&grid, r);
        high[axis] = within(&grid, axis, top - f64::from(r.pick(&[0.0, 0.1, 0.5_f32])));
        low[axis] = within(&grid, axis, high[axis] - f64::from(r.pick(&[0.3, 1.0, 2.0_f32])));
        join(&mut mesh, shapes::cuboid(low, high));
    }
    roomy(grid, &mesh, r)
}

// Facets whose magnitudes are alike and whose signs are not.

/// A grid with one layer of centres across the axis, at 0 there, of cells of one size.
pub fn layer_at_zero(axis: usize, size: f32, r: &mut Random) -> Grid {
    let mut count = counts(r);
    count[axis] = 1;
    let mut first = [0; 3].map(|_| r.between(0, 4) as f32 * 0.5 * size);
    first[axis] = 0.0;
    Grid { first, size: [size; 3], count, upright: None }
}

/// Plates right across the grid at these places along the axis, each of two facets that look up along it, or down.
pub fn plates_at(grid: Grid, axis: usize, places: &[(f32, bool)], r: &mut Random) -> Job {
    let mut mesh = Mesh::default();
    for &(_, looks_up) in places {
        let (mut low, mut high) = ends(&grid, r);
        (low[axis], high[axis]) = (0.0, 0.0);
        let mut plate = inside::plate(low, high, axis);
        // A cuboid's lower face looks down.
        if looks_up {
            plate.triangles.iter_mut().for_each(turn_round);
        }
        join(&mut mesh, plate);
    }
    let mut job = roomy(grid, &mesh, r);
    // A plate has the eight vertices of its cuboid.
    for (number, &(place, _)) in places.iter().enumerate() {
        job.vertices[8 * number..][..8].iter_mut().for_each(|v| v[axis] = place);
    }
    job
}

/// Two plates that look the same way, one on each side of a layer of centres, so that one distance is positive and the other negative. Their
/// magnitudes differ by so many floats: where floats are far apart, to 2 are alike, and where they are close, to 1e-6. In turn the positive
/// one is the larger and the smaller.
fn alike_by_floats(r: &mut Random) -> Job {
    let ways = [(96.0, 2), (0.375, 33), (96.0, 3), (0.375, 34), (12.0, 2), (12.0, 1), (96.0, 1), (0.375, 3), (12.0, 3), (0.0625, 250), (96.0, 0)];
    let ways = ways.map(|(near, floats)| [true, false].map(|positive_larger| (near, floats, positive_larger)));
    let (near, floats, positive_larger) = r.turn(ways.as_flattened());
    let far = f32::from_bits(f32::to_bits(near) + floats);
    let (positive, negative) = if positive_larger { (far, near) } else { (near, far) };
    let looks_up = r.once_in(2);
    // The centre is above the plate that it is on the positive side of, if that one looks up.
    let mut places = if looks_up { [(-positive, true), (negative, true)] } else { [(positive, false), (-negative, false)] };
    shuffle(&mut places, r);
    let axis = r.below(3) as usize;
    let grid = layer_at_zero(axis, 4.0 * near, r);
    plates_at(grid, axis, &places, r)
}

/// Plates so close to a layer of centres that their magnitudes are alike, or nearly: 0 is alike to 1e-6, and not to the next float. In turn two,
/// one on each side, or one on the centres themselves, which are at −0; and two or three anywhere.
fn alike_near_zero(r: &mut Random) -> Job {
    let away = [2e-7, 5e-7, 9e-7, 1e-6, 1.05e-6, 2e-6];
    let pair = r.turn(&[Some((0.0, 1e-6)), None, Some((0.0, 1.000_000_1e-6)), Some((2e-7, 1.1e-6)), None, Some((0.0, 5e-7)), Some((3e-7, 1.4e-6))]);
    let places: Vec<(f32, bool)> = match pair {
        // The centre is below the one and above the other, and both look up; or the other way round.
        Some((negative, positive)) if r.once_in(2) => vec![(negative, true), (-positive, true)],
        Some((negative, positive)) => vec![(positive, false), (-negative, false)],
        None => (0..r.between(2, 3)).map(|_| (r.pick(&away) * r.pick(&[1.0, 0.0, -1.0]), r.once_in(2))).collect(),
    };
    let axis = r.below(3) as usize;
    let size = r.pick(&[1.0 / 1_024.0, 0.125, 1.0]);
    let grid = layer_at_zero(axis, size, r);
    plates_at(grid, axis, &places, r)
}

/// Facets each of which comes again with the other winding: every distance is there with both signs, but where the dot is 0.
fn alike_both_sides(r: &mut Random) -> Job {
    let grid = few_cells(r);
    let n = r.between(1, 3);
    let mut mesh = shapes::soup(r, -0.4, grid.count.map(|n| f64::from(n) - 0.6), n);
    let again = mesh.triangles.clone();
    mesh.triangles.extend(again);
    mesh.triangles[n as usize..].iter_mut().for_each(turn_round);
    shuffle(&mut mesh.triangles, r);
    roomy(grid, &mesh, r)
}

// A dot of exactly 0, or nearly.

/// Facets with all corners on centres: cells at −0 on corners, on edges and within, and centres in the planes beyond.
fn centres_on_facets(r: &mut Random) -> Job {
    let grid = few_cells(r);
    let mut mesh = Mesh::default();
    for _ in 0..r.between(1, 3) {
        let mut corners = [0; 3].map(|_| grid.count.map(|n| f64::from(r.between(0, n - 1))));
        if r.once_in(2) {
            let axis = r.below(3) as usize;
            let layer = corners[0][axis];
            corners.iter_mut().for_each(|corner| corner[axis] = layer);
        }
        triangle(&mut mesh, corners);
    }
    roomy(grid, &mesh, r)
}

/// A small facet in a layer of centres, so that the others of the layer lie in its plane, off it: at a distance, and negative. Half the time a
/// second one, in a layer along the same axis.
fn centres_in_plane(r: &mut Random) -> Job {
    let grid = few_cells(r);
    let axis = r.below(3) as usize;
    let mut mesh = Mesh::default();
    for _ in 0..r.between(1, 2) {
        let layer = f64::from(r.between(0, grid.count[axis] - 1));
        let middle = grid.count.map(|n| f64::from(r.between(0, 2 * n - 2)) * 0.5);
        let corners = [0; 3].map(|_| {
            let mut at = [0, 1, 2].map(|a| within(&grid, a, middle[a] + 0.3 * f64::from(r.unit())));
            at[axis] = layer;
            at
        });
        triangle(&mut mesh, corners);
    }
    roomy(grid, &mesh, r)
}

/// Centres so near to the plane of the facet that they name that the side depends on rounding: taken from corner a, and not from the closest point,
/// which is in the same plane, it would be the other.
fn centres_near_plane(r: &mut Random) -> Job {
    loop {
        let job = Job { queue: 2_048, ..normal(inside::alike_soup(r)) };
        let Ok(done) = model::answer(&job) else { continue };
        let triangles = topology::triangles(&job);
        let by_corner = |(cell, &name): (usize, &u32)| {
            let [a, b, c] = triangles.get(name as usize)?.map(|v| job.vertices[v as usize]);
            let centre = job.grid.centre(job.grid.coordinates(cell as u32));
            Some(dot(sub(centre, a), cross(sub(b, a), sub(c, a))) > 0.0)
        };
        let sides = done.names.iter().enumerate().map(by_corner);
        if sides.zip(&done.field).any(|(side, value)| side == Some(value.is_sign_negative())) {
            return job;
        }
    }
}

/// A facet whose normal is zero, so that it is negative all round: corners that are alike, by number or by place, corners on a line, and
/// corners so close together that the products underflow. Half the time a plain facet beside it.
fn normal_of_zero(r: &mut Random) -> Job {
    let grid = few_cells(r);
    let mesh = shapes::soup(r, -0.4, grid.count.map(|n| f64::from(n) - 0.6), 2);
    let mut job = roomy(grid, &mesh, r);
    let [a, b] = [job.vertices[0], job.vertices[1]];
    let indices = job.indices.as_mut().expect("a list with indices");
    match r.turn(&["a=b", "on-a-line", "b=c", "tiny", "a=c", "a-point", "same-places"]) {
        "a=b" => indices[1] = indices[0],
        "b=c" => indices[2] = indices[1],
        "a=c" => indices[2] = indices[0],
        "a-point" => indices[..3].fill(0),
        "same-places" => job.vertices[2] = job.vertices[1],
        "on-a-line" => {
            // Whole numbers, so that the products are exact.
            let [a, b] = [a, b].map(|v| v.map(f32::round));
            job.vertices[0] = a;
            job.vertices[1] = b;
            job.vertices[2] = [0, 1, 2].map(|axis| a[axis] + (b[axis] - a[axis]) * 0.5);
        }
        _ => {
            let by = f32::from_bits(r.between(45, 60) << 23);
            job.grid.first = [-0.25, -0.5, -0.25];
            job.vertices[..3].copy_from_slice(&[[by, 0.0, 0.0], [0.0, by, 0.0], [0.0, 0.0, by]]);
        }
    }
    if r.once_in(2) {
        indices_of(&mut job).truncate(3);
    }
    job
}

fn indices_of(job: &mut Job) -> &mut Vec<u32> {
    job.indices.as_mut().expect("a list with indices")
}

/// A closed hull that looks outwards, inwards, or facet by facet either way.
fn normal_hull(r: &mut Random) -> Job {
    let way = r.turn(&["outwards", "inwards", "either"]);
    let (grid, mut mesh) = hull(r);
    for facet in &mut mesh.triangles {
        if way == "inwards" || way == "either" && r.once_in(2) {
            turn_round(facet);
        }
    }
    roomy(grid, &mesh, r)
}

// Refusals.

/// Room and pops that are just enough, or one too few, by the model's own counts.
fn room_and_pops(r: &mut Random) -> Job {
    let way = r.turn(&["room-one-lower", "pops-one-lower", "both-exact", "no-room", "no-pops", "room-exact", "pops-exact", "both-one-lower"]);
    loop {
        let draw = r.pick(&[deck_with_pontoons as Make, alike_both_sides, centres_on_facets, normal_hull, |r| normal_of(r, &["soup-lattice"])]);
        let mut job = Job { queue: 2_048, pops: u32::MAX, ..draw(r) };
        let Ok(done) = model::answer(&job) else { continue };
        let (room, pops) = (done.peak, done.pops);
        match way {
            "room-exact" => job.queue = room,
            "room-one-lower" => job.queue = room - 1,
            "pops-exact" => job.pops = pops,
            "pops-one-lower" => job.pops = pops - 1,
            "both-exact" => (job.queue, job.pops) = (room, pops),
            "both-one-lower" => (job.queue, job.pops) = (room - 1, pops - 1),
            "no-room" => job.queue = 0,
            _ => job.pops = 0,
        }
        return job;
    }
}

/// A NaN in seeding, in spreading, or with room that is just enough to come to it, or one too little; and distances that are infinite, which no
/// cell takes, with either sign.
fn nan(r: &mut Random) -> Job {
    let of = ["underflow-segment", "underflow-in-spreading", "infinite-distance", "nan-or-full", "underflow-triangle", "hair-corner"];
    let job = normal_of(r, &of);
    if r.turn(&of) != "nan-or-full" {
        return job;
    }
    loop {
        let mut job = normal_of(r, &["underflow-in-spreading"]);
        job.queue = 0;
        while model::answer(&job).err() == Some(7) {
            job.queue += 1;
        }
        if model::answer(&job).err() == Some(6) && job.queue > 0 {
            job.queue -= u32::from(r.once_in(2));
            return job;
        }
    }
}

/// Every number before the run, alone and beside one that comes later.
fn refused(r: &mut Random) -> Job {
    let ways = [[13, 13], [10, 10], [4, 4], [2, 2], [1, 1], [13, 10], [10, 7], [4, 10], [2, 13], [1, 2], [13, 4], [10, 8], [1, 13], [2, 4]];
    let numbers = r.turn(&ways);
    let mut job = deck(r, flat, None);
    let axis = r.below(3) as usize;
    for number in numbers {
        refuse_by(number, &mut job, axis, r);
    }
    job
}

/// Makes a list with indices one that is refused by this number, 1, 2, 13, 4, 10, 7 or 8, unless it is by another that comes before. What has a
/// place on an axis has it on this one.
pub fn refuse_by(number: u32, job: &mut Job, axis: usize, r: &mut Random) {
    match number {
        1 => job.grid.size[axis] = r.pick(&[0.0, -1.0, f32::NAN, 1_024.5]),
        2 => job.vertices[1][axis] = f32::from_bits(r.pick(&BEYOND)),
        13 => job.topology = Topology::Strip,
        4 => indices_of(job)[2] = u32::MAX,
        10 => {
            let out = ladder(&job.grid, axis, r);
            let n = job.vertices.len() as u32;
            job.vertices.extend(out);
            indices_of(job).extend([n, n + 1, n + 2]);
        }
        7 => job.queue = 0,
        _ => job.pops = 0,
    }
}

/// A facet a cell beyond the grid's box along the axis.
fn ladder(grid: &Grid, axis: usize, r: &mut Random) -> [Point; 3] {
    let beyond = if r.once_in(2) { f64::from(grid.count[axis]) + 0.5 } else { -1.5 };
    [0; 3].map(|_| {
        let mut at = grid.count.map(|n| f64::from(r.between(0, n)) - 0.5);
        at[axis] = beyond;
        place(grid, at)
    })
}
