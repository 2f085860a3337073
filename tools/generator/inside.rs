//! Kinds whose triangles all lie within the grid's box, so that no job of them is refused for lying off the grid
//! (document 02, §6): what the other requests of document 02 turn on stands here too. One kind, `hull-one-ulp-out`, lies off the
//! box by the least that a float can.

use crate::kinds::{body, grid, job, join, shuffle, Make};
use crate::random::Random;
use crate::shapes::{self, Mesh};
use model::grid::Grid;
use model::topology::Topology;
use model::{Job, SignMethod};

pub const KINDS: [(&str, Make); 14] = [
    // Distances of 0, inside and outside: §2, §11.
    ("floor-inside", |r| plane_inside(r, 2)),
    ("wall-inside", |r| {
        let axis = r.below(2) as usize;
        plane_inside(r, axis)
    }),
    ("zero-distances", zero_distances),
    // The grid's box itself: §6.
    ("hull-touches-box", hull_touches_box),
    ("hull-one-ulp-out", hull_one_ulp_out),
    // Rays that meet an edge or a corner: §3.
    ("grazing-edges", grazing_edges),
    ("grazing-corners", grazing_corners),
    // Long lines, and tanks along each axis: §4, §9.
    ("tall-tank", |r| long_tank(r, 2)),
    ("lying-tank", |r| {
        let axis = r.below(2) as usize;
        long_tank(r, axis)
    }),
    // What a scanner writes: §1, §10.
    ("scan-corners-apart", corners_apart),
    ("scan-repeats", scan_repeats),
    // Magnitudes that are alike under both signs: §8.
    ("alike-plates", alike_plates),
    ("alike-soup", alike_soup),
    ("queue-order", queue_order),
];

/// A grid of some cells along each axis, with centres that are plain numbers two times of three.
pub fn roomy_grid(r: &mut Random) -> Grid {
    let mut grid = grid(r);
    grid.count = [0; 3].map(|_| r.between(2, 6));
    if !r.once_in(3) {
        grid.first = [0; 3].map(|_| r.between(0, 8) as f32 * 0.5 - 2.0);
        grid.size = [0; 3].map(|_| r.pick(&[0.25, 0.5, 1.0, 1.0, 2.0]));
    }
    grid
}

/// From a to b in cell units, drawn in so far that rounding keeps it off the sides of the grid's box.
pub fn within(grid: &Grid, axis: usize, at: f64) -> f64 {
    at.clamp(-0.49, f64::from(grid.count[axis]) - 0.51)
}

/// Low and high of a box that lies within the grid's, its sides off the centres.
pub fn ends(grid: &Grid, r: &mut Random) -> ([f64; 3], [f64; 3]) {
    let mut ends = ([0.0; 3], [0.0; 3]);
    for axis in 0..3 {
        let n = f64::from(grid.count[axis]);
        ends.0[axis] = within(grid, axis, -0.45 + f64::from(r.unit().abs()) * 0.4);
        ends.1[axis] = within(grid, axis, n - 0.55 - f64::from(r.unit().abs()) * 0.4);
    }
    ends
}

/// A closed box with a plate across the axis on a layer of centres, whose cells are then at distance 0. Once in three the plate
/// is a side of the box: the rays within it meet the edges of the walls, so that the layer is outside, +0. Else the walls go on
/// beyond it, as a tank's skirt below its floor: the layer is inside, −0.
fn plane_inside(r: &mut Random, axis: usize) -> Job {
    let grid = roomy_grid(r);
    plane_in(grid, axis, r)
}

/// The same in this grid.
pub fn plane_in(grid: Grid, axis: usize, r: &mut Random) -> Job {
    let (mut low, mut high) = ends(&grid, r);
    let layer = f64::from(r.between(0, grid.count[axis] - 1));
    let mut mesh = if r.once_in(3) {
        if r.once_in(2) {
            low[axis] = layer;
        } else {
            high[axis] = layer;
        }
        shapes::cuboid(low, high)
    } else {
        let mut mesh = shapes::cuboid(low, high);
        (low[axis], high[axis]) = (layer, layer);
        join(&mut mesh, plate(low, high, axis));
        mesh
    };
    shuffle(&mut mesh.triangles, r);
    job(grid, &mesh, r)
}

/// A plate across the axis: a cuboid without height has it twice, and flat sides; the first alone is kept.
pub fn plate(low: [f64; 3], high: [f64; 3], axis: usize) -> Mesh {
    let mut plate = shapes::cuboid(low, high);
    plate.triangles = plate.triangles[shapes::cuboid_face(axis)].to_vec();
    plate
}

/// Boxes all of whose sides lie on centres, within a hull that goes round them half the time: distances of +0 and −0, on
/// sides, edges and corners.
fn zero_distances(r: &mut Random) -> Job {
    let grid = roomy_grid(r);
    let corner = |r: &mut Random| grid.count.map(|n| f64::from(r.between(0, n - 1)));
    let mut mesh = Mesh::default();
    if r.once_in(2) {
        let (low, high) = ends(&grid, r);
        join(&mut mesh, shapes::cuboid(low, high));
    }
    for _ in 0..r.between(1, 2) {
        let (a, b) = (corner(r), corner(r));
        let low = [0, 1, 2].map(|axis| a[axis].min(b[axis]));
        let high = [0, 1, 2].map(|axis| a[axis].max(b[axis]));
        join(&mut mesh, shapes::cuboid(low, high));
    }
    job(grid, &mesh, r)
}

/// A tiny triangle across the first cell's three rays, near its centre: each of them hits it, and the cell is inside. But the
/// weights' sum is so small that its inverse overflows, so the distance is infinite and the cell stays at f32::MAX: −f32::MAX.
pub fn at_max(r: &mut Random) -> Job {
    loop {
        let mut grid = roomy_grid(r);
        grid.first = [0.0; 3];
        grid.count = [0; 3].map(|_| r.between(1, 3));
        let mut job = job(grid, &Mesh { vertices: vec![[0.0; 3]; 3], triangles: vec![[0, 1, 2]] }, r);
        let scale = f32::from_bits(r.between(89, 92) << 23);
        let near = r.unit().abs() * 0.9 - 1.0;
        let corners = [[3.0, -1.0, -1.0], [-1.0, 3.0, near], [-1.0, near, 3.0]];
        let turned = r.below(3) as usize;
        job.vertices = corners.map(|v| [0, 1, 2].map(|axis| v[(axis + turned) % 3] * scale)).to_vec();
        let corners = [job.vertices[0], job.vertices[1], job.vertices[2]];
        let centre = job.grid.centre([0; 3]);
        let hit = (0..3).all(|axis| model::geometry::ray(centre, corners, axis).hit().is_some());
        if hit && model::geometry::distance(centre, corners).is_infinite() {
            return job;
        }
    }
}

/// The grid's box as a hull, bit for bit as document 01 rounds its sides.
fn hull_touches_box(r: &mut Random) -> Job {
    let grid = roomy_grid(r);
    let (low, high) = (grid.box_minimum(), grid.box_maximum());
    let mut job = job(grid, &shapes::cuboid([0.0; 3], [1.0; 3]), r);
    for (corner, v) in job.vertices.iter_mut().enumerate() {
        *v = [0, 1, 2].map(|axis| if corner >> axis & 1 == 0 { low[axis] } else { high[axis] });
    }
    job
}

/// The same with one side moved out by one float.
fn hull_one_ulp_out(r: &mut Random) -> Job {
    let mut job = hull_touches_box(r);
    let axis = r.turn(&[0, 1, 2]);
    let high = r.once_in(2);
    let side = if high { job.grid.box_maximum()[axis] } else { job.grid.box_minimum()[axis] };
    let out = if high { next_up(side) } else { -next_up(-side) };
    for (corner, v) in job.vertices.iter_mut().enumerate() {
        if (corner >> axis & 1 == 1) == high {
            v[axis] = out;
        }
    }
    job
}

/// The next float above.
pub fn next_up(x: f32) -> f32 {
    match x.to_bits() {
        0x8000_0000 => f32::from_bits(1),
        bits if x < 0.0 => f32::from_bits(bits - 1),
        bits => f32::from_bits(bits + 1),
    }
}

/// Triangles with an edge that runs through centres: rays along two axes meet it.
fn grazing_edges(r: &mut Random) -> Job {
    let grid = roomy_grid(r);
    let mut mesh = Mesh::default();
    for _ in 0..r.between(1, 4) {
        let a = grid.count.map(|n| f64::from(r.between(0, n - 1)));
        let mut b = a;
        let axis = r.below(3) as usize;
        b[axis] = f64::from(r.between(0, grid.count[axis] - 1));
        let c = [0, 1, 2].map(|axis| {
            let n = f64::from(grid.count[axis]);
            within(&grid, axis, (f64::from(r.unit()) + 1.0) / 2.0 * n - 0.5)
        });
        triangle(&mut mesh, [a, b, c]);
    }
    job(grid, &mesh, r)
}

/// Triangles with all corners on centres, some across an axis: rays meet corners, and edges from end to end.
fn grazing_corners(r: &mut Random) -> Job {
    let grid = roomy_grid(r);
    let mut mesh = Mesh::default();
    for _ in 0..r.between(1, 5) {
        let mut corners = [0; 3].map(|_| grid.count.map(|n| f64::from(r.between(0, n - 1))));
        if r.once_in(2) {
            let axis = r.below(3) as usize;
            corners[1][axis] = corners[0][axis];
            corners[2][axis] = corners[0][axis];
        }
        triangle(&mut mesh, corners);
    }
    job(grid, &mesh, r)
}

/// What the other kinds have seldom or never: along each axis in turn, a ray over an edge whose weight is -0; one through a corner
/// with two weights of -0; a needle along the axis, which all rays along it graze; a point, which all rays graze; and an edge that
/// two triangles share, so that a ray over it counts twice. No centre is -0, so where a ray grazes a facet that is not edge-on, its
/// zero weights are all -0 only if an edge runs from +0 to -0, or if a product underflows.
pub fn grazing_zeros(r: &mut Random) -> Job {
    let ways = [0, 1, 2, 3, 4].map(|way| [0, 1, 2].map(|axis| (way, axis)));
    let (way, axis) = r.turn(ways.as_flattened());
    let (y, z) = ((axis + 1) % 3, (axis + 2) % 3);
    loop {
        // The middle cell of three on each axis, or the second of four, has its centre at 0.
        let size = [0; 3].map(|_| r.pick(&[0.25, 0.5, 1.0, 2.0]));
        let grid = Grid { first: size.map(|s: f32| -s), size, count: [0; 3].map(|_| r.between(3, 4)), upright: None };
        // In cells from there, across the axis; along it, anywhere in halves.
        let mut along = || f64::from(r.between(0, 4)) * 0.5;
        let mut corner = |at_y: i32, at_z: i32| {
            let mut at = [0.0; 3];
            (at[axis], at[y], at[z]) = (along(), 1.0 + f64::from(at_y), 1.0 + f64::from(at_z));
            at
        };
        let mut mesh = Mesh::default();
        match way {
            0 => triangle(&mut mesh, [corner(0, -1), corner(0, 1), corner(1, 0)]),
            1 => triangle(&mut mesh, [corner(0, -1), corner(0, 0), corner(-1, 1)]),
            2 => triangle(&mut mesh, [corner(0, 1), corner(0, 1), corner(0, 1)]),
            3 => {
                triangle(&mut mesh, [corner(0, 1); 3]);
                triangle(&mut mesh, [corner(-1, -1), corner(1, -1), corner(0, 1)]);
            }
            _ => {
                mesh.vertices = vec![corner(-1, -1), corner(1, 1), corner(1, -1), corner(-1, 1)];
                mesh.triangles = vec![[0, 1, 2], [0, 1, 3]];
            }
        }
        let mut job = job(grid, &mesh, r);
        job.vertices[1][y] = if job.vertices[1][y] == 0.0 { -0.0 } else { job.vertices[1][y] };
        if model::answer(&job).is_ok() {
            return job;
        }
    }
}

pub fn triangle(mesh: &mut Mesh, corners: [[f64; 3]; 3]) {
    let n = mesh.vertices.len() as u32;
    mesh.vertices.extend(corners);
    mesh.triangles.push([n, n + 1, n + 2]);
}

/// A closed tank along the axis in a grid that is long there, its blanking plate on or off.
fn long_tank(r: &mut Random, axis: usize) -> Job {
    let mut grid = grid(r);
    grid.count = [0; 3].map(|_| r.between(2, 4));
    grid.count[axis] = r.between(12, 30);
    let mesh = tank_along(&grid, axis, 0.9, r);
    job(grid, &mesh, r)
}

/// A closed tank within the grid's box, with its own axis along this one and no wider than so many cells each way; its blanking plate on or off.
pub fn tank_along(grid: &Grid, axis: usize, widest: f64, r: &mut Random) -> Mesh {
    // Standing first, then turned: x, y, z go round until z is the axis.
    let turned = [(axis + 1) % 3, (axis + 2) % 3, axis];
    let standing = Grid { count: turned.map(|a| grid.count[a]), ..grid.clone() };
    let (middle, half) = body(&standing, r);
    let plate = !r.once_in(3);
    let mut mesh = shapes::tank(middle, half[0].min(half[1]).min(widest), half[2], r.between(3, 12), plate);
    for v in &mut mesh.vertices {
        let mut at = [0.0; 3];
        for (from, to) in turned.into_iter().enumerate() {
            at[to] = v[from];
        }
        *v = [0, 1, 2].map(|a| within(grid, a, at[a]));
    }
    mesh
}

/// A closed tank or a box within the grid.
pub fn hull(r: &mut Random) -> (Grid, Mesh) {
    let grid = roomy_grid(r);
    let mesh = hull_in(&grid, r);
    (grid, mesh)
}

/// The same in this grid.
pub fn hull_in(grid: &Grid, r: &mut Random) -> Mesh {
    if r.once_in(2) {
        let (low, high) = ends(grid, r);
        return shapes::cuboid(low, high);
    }
    let (middle, half) = body(grid, r);
    let mut mesh = shapes::tank(middle, half[0].min(half[1]), half[2], r.between(3, 8), true);
    for v in &mut mesh.vertices {
        *v = [0, 1, 2].map(|axis| within(grid, axis, v[axis]));
    }
    mesh
}

/// Each facet with three corners of its own and no indices, as a scanner's file has them.
fn corners_apart(r: &mut Random) -> Job {
    let (grid, mesh) = hull(r);
    let mut job = job(grid, &mesh, r);
    job.vertices = job.indices.iter().flatten().take(255).map(|&i| job.vertices[i as usize]).collect();
    job.indices = None;
    job
}

/// The same with indices, and with facets that come again (turned, or with the other winding), facets with two equal
/// numbers, corners that differ in the sign of a zero alone, and vertices that no facet uses.
fn scan_repeats(r: &mut Random) -> Job {
    let mut job = corners_apart(r);
    let mut indices: Vec<u32> = (0..job.vertices.len() as u32).collect();
    for _ in 0..r.between(1, 5) {
        let t = 3 * r.below(indices.len() as u64 / 3) as usize;
        let [a, b, c] = [indices[t], indices[t + 1], indices[t + 2]];
        let again = r.pick(&[[a, b, c], [b, c, a], [a, c, b], [c, b, a], [a, a, c], [a, b, b], [c, b, c]]);
        indices.extend(again);
    }
    if r.once_in(2) {
        let (v, axis) = (r.below(job.vertices.len() as u64) as usize, r.below(3) as usize);
        let n = job.vertices.len() as u32;
        let mut other = job.vertices[v];
        (job.vertices[v][axis], other[axis]) = (0.0, -0.0);
        job.vertices.truncate(254);
        if n <= 254 {
            job.vertices.push(other);
            indices.extend([v as u32, (v as u32 + 1) % n, n]);
        } else {
            indices.retain(|&i| i < 254);
            indices.truncate(indices.len() / 3 * 3);
        }
    }
    if r.once_in(2) && job.vertices.len() < 256 {
        let unused = job.vertices[r.below(job.vertices.len() as u64) as usize];
        job.vertices.push(unused);
    }
    job.indices = Some(indices);
    job
}

/// Two plates that look at each other from both sides of a layer of centres, as far from it but for a hair: the same
/// magnitude, or one within two floats or 1e-6 of it, once in front and once behind.
pub fn alike_plates(r: &mut Random) -> Job {
    let grid = roomy_grid(r);
    let axis = r.below(3) as usize;
    let layer = f64::from(r.between(0, grid.count[axis] - 1));
    let away = r.pick(&[0.25, 0.375, 0.4]);
    let mut mesh = Mesh::default();
    for (side, turned) in [(-away, r.once_in(2)), (away, r.once_in(2))] {
        let (mut low, mut high) = ends(&grid, r);
        (low[axis], high[axis]) = (layer + side, layer + side);
        let mut plate = plate(low, high, axis);
        if turned {
            plate.triangles.iter_mut().for_each(|t| t.swap(1, 2));
        }
        join(&mut mesh, plate);
    }
    let mut job = job(grid, &mesh, r);
    for v in &mut job.vertices[8..] {
        for _ in 0..r.below(3) {
            v[axis] = next_up(v[axis]);
        }
    }
    job
}

/// Facets with corners on centres, each moved by at most a few floats: many distances are alike and few are equal.
pub fn alike_soup(r: &mut Random) -> Job {
    let grid = roomy_grid(r);
    let mut mesh = Mesh::default();
    for _ in 0..r.between(2, 6) {
        triangle(&mut mesh, [0; 3].map(|_| grid.count.map(|n| f64::from(r.between(0, 2 * n - 2)) * 0.5)));
    }
    let mut job = job(grid, &mesh, r);
    for x in job.vertices.iter_mut().flatten() {
        for _ in 0..r.below(4) {
            *x = if r.once_in(2) { next_up(*x) } else { -next_up(-*x) };
        }
    }
    job
}

/// Two meshes that tell the orders of the queue apart under Normal signs (§8): by the order that document 02 gives the queue
/// the first takes 10 entries and by the source's 9, and a cell of the second has another sign.
pub fn queue_order(r: &mut Random) -> Job {
    let (count, size, corners) = r.turn(&[
        (
            [2, 4, 1],
            0x3a80_0000,
            [
                [0x3b80_0000, 0x3b60_0000, 0x3ac0_0000],
                [0x3ac0_0000, 0x3b60_0000, 0x0000_0000],
                [0x3b20_0000, 0x3a00_0000, 0x3ac0_0000],
                [0x3a80_0000, 0x3b20_0000, 0x3a00_0000],
                [0x3ac0_0000, 0x3b60_0000, 0x3b60_0000],
                [0x0000_0000, 0x3b80_0000, 0x3b60_0000],
            ],
        ),
        (
            [4, 1, 3],
            0x3f80_0000,
            [
                [0x3f80_0003, 0x4080_0001, 0x4060_0002],
                [0x3fc0_0003, 0x34d6_bf95, 0x3fff_fffd],
                [0x401f_fffe, 0x4000_0002, 0x3fff_fffd],
                [0x34d6_bf95, 0xb4d6_bf95, 0x4000_0000],
                [0x0000_0000, 0x4000_0002, 0x405f_fffe],
                [0x403f_fffe, 0x3fc0_0000, 0x4000_0000],
            ],
        ),
    ]);
    Job {
        grid: Grid { first: [0.0; 3], size: [f32::from_bits(size); 3], count, upright: None },
        topology: Topology::List,
        sign: SignMethod::Raycast,
        vertices: corners.map(|corner| corner.map(f32::from_bits)).to_vec(),
        indices: None,
        queue: 2_048,
        pops: 1_000_000,
        edition: None,
    }
}
