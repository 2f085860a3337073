//! The kinds of jobs. Each takes random numbers and gives the text of one job.

use crate::damage;
use crate::inside;
use crate::normal;
use crate::off_grid;
use crate::old;
use crate::random::Random;
use crate::shapes::{self, Mesh};
use crate::table;
use crate::tidy;
use crate::upright;
use model::grid::Grid;
use model::topology::Topology;
use model::{bounds, convert, text, Job, SignMethod};

const BOUND: f32 = 1_048_576.0;
const LEAST_SIZE: f32 = 1.0 / 1_024.0;
const MOST_SIZE: f32 = 1_024.0;
/// The job program's own limits.
const MOST_VERTICES: u32 = 256;
/// Of a strip, and of a list.
const MOST_INDICES: [u32; 2] = [768, 2_298];
const MOST_ENTRIES: u32 = 2_048;

pub type Make = fn(&mut Random) -> Job;

/// Kinds that are asked for by name alone: five that lie beyond the job program's limits, and two that came after the sets.
pub const ALONE: [(&str, Make); 7] = [
    ("large-sphere", large_sphere),
    ("large-tank", large_tank),
    ("large-soup", large_soup),
    ("large-too-many-triangles", too_many_triangles),
    ("large-too-many-vertices", too_many_vertices),
    // A set sign bit without a distance: §2.
    ("inside-at-max", inside::at_max),
    // Weights of -0, and facets that all rays along an axis graze: §3.
    ("inside-grazing-zeros", inside::grazing_zeros),
];

/// The kinds that the base was built with.
pub const BASE: [(&str, Make); 69] = [
    // Closed hulls, and a tank with its blanking plate on or off.
    ("box", closed_box),
    ("box-on-centres", box_on_centres),
    ("box-on-grid-box", box_on_grid_box),
    ("box-halves", box_halves),
    ("box-around-grid", box_around_grid),
    ("flat-floor", flat_floor),
    ("two-boxes", two_boxes),
    ("sphere", sphere),
    ("sphere-fine", sphere_fine),
    ("tank-plate-on", |r| tank(r, true)),
    ("tank-plate-off", |r| tank(r, false)),
    ("plates-on-centres", plates_on_centres),
    // Meshes without order.
    ("soup", soup),
    ("soup-lattice", soup_lattice),
    ("soup-beyond-grid", soup_beyond),
    ("soup-many-cells", soup_many_cells),
    ("one-triangle", one_triangle),
    ("degenerate", degenerate),
    ("collinear", collinear),
    ("slivers", slivers),
    ("repeated-triangles", repeated),
    ("repeated-vertices", repeated_vertices),
    // Numbers at the ends.
    ("at-bounds", at_bounds),
    ("grid-at-bounds", grid_at_bounds),
    ("small-cells", small_cells),
    ("large-cells", large_cells),
    ("uneven-cells", uneven_cells),
    ("zeros-and-subnormals", zeros_and_subnormals),
    ("signed-zero-corners", signed_zero_corners),
    ("underflow-segment", underflow_segment),
    ("underflow-triangle", underflow_triangle),
    ("underflow-in-spreading", underflow_in_spreading),
    ("nan-or-full", nan_or_full),
    ("hair-corner", hair_corner),
    ("infinite-distance", infinite_distance),
    // Topology.
    ("strip", strip),
    ("strip-no-indices", strip_no_indices),
    ("list-no-indices", list_no_indices),
    ("left-over", left_over),
    ("left-over-bad", left_over_bad),
    ("few-indices", few_indices),
    ("no-triangles", no_triangles),
    ("unused-vertices", unused_vertices),
    // Queue room and pop limit.
    ("queue-is-peak", |r| tight(r, |job, _, peak, _| job.queue = peak)),
    ("queue-one-lower", |r| tight(r, |job, _, peak, _| job.queue = peak.saturating_sub(1))),
    ("queue-too-small", |r| tight(r, |job, _, peak, r| job.queue = r.between(0, peak))),
    ("pops-exact", |r| tight(r, |job, pops, _, _| job.pops = pops)),
    ("pops-one-lower", |r| tight(r, |job, pops, _, _| job.pops = pops.saturating_sub(1))),
    ("pops-too-few", |r| tight(r, |job, pops, _, r| job.pops = r.between(0, pops))),
    ("both-exact", |r| tight(r, |job, pops, peak, _| (job.queue, job.pops) = (peak, pops))),
    ("both-one-lower", |r| {
        tight(r, |job, pops, peak, _| (job.queue, job.pops) = (peak.saturating_sub(1), pops.saturating_sub(1)))
    }),
    ("no-room-no-pops", |r| tight(r, |job, _, _, _| (job.queue, job.pops) = (0, 0))),
    // Refusals 1, 2, 4.
    ("count-zero", count_zero),
    ("first-beyond", first_beyond),
    ("size-beyond", size_beyond),
    ("vertex-beyond", vertex_beyond),
    ("unused-vertex-beyond", unused_vertex_beyond),
    ("index-beyond", index_beyond),
    ("several-refusals", several_refusals),
    // The program's own limits, and counts that wrap around in 32 or 64 bits.
    ("cells-at-limit", |r| at_limit(r, 0)),
    ("vertices-at-limit", |r| at_limit(r, 1)),
    ("indices-at-limit", |r| at_limit(r, 2)),
    ("queue-at-limit", |r| at_limit(r, 3)),
    ("beyond-limits", beyond_limits),
    ("counts-that-wrap", counts_that_wrap),
    ("large-numbers", large_numbers),
    // Document 01's own points, one after the other.
    ("document-01", document_01),
    // The text itself; the kind's job is spoiled afterwards.
    ("damaged", soup),
    ("damaged-small", one_triangle),
];

/// Kinds that lie off the grid by design, beside those of the set `off-grid`.
const OFF_GRID: [&str; 3] = ["box-around-grid", "hull-one-ulp-out", "strip-off-grid"];
/// How often any other kind draws again, at most.
const DRAWINGS: u32 = 500;

/// The kinds that take turns: those of a set, or of `base`, `inside` and `off-grid` together.
pub fn of_set(set: Option<&str>) -> Vec<&'static str> {
    let names = |kinds: &'static [(&'static str, Make)]| kinds.iter().map(|(name, _)| *name);
    match set {
        Some("base") => names(&BASE).collect(),
        Some("inside") => names(&inside::KINDS).collect(),
        Some("off-grid") => names(&off_grid::KINDS).collect(),
        Some("old") => names(&old::KINDS).collect(),
        Some("long") => names(&old::LONG).collect(),
        Some("normal") => names(&normal::KINDS).collect(),
        Some("upright") => names(&upright::KINDS).collect(),
        Some("tidy") => names(&tidy::KINDS).collect(),
        Some("table") => names(&table::KINDS).collect(),
        _ => names(&BASE).chain(names(&inside::KINDS)).chain(names(&off_grid::KINDS)).collect(),
    }
}

/// The text of one job of the kind.
///
/// The kinds of the base came before document 02, §6, and many of their meshes stick out of the grid: what each was made to show
/// would be lost in refusals by 10. So where the first drawing is refused so, it is kept once in four, and else the kind draws
/// until one is not. What was not refused so stays word for word what it was: no number is drawn before it. Of a strip, which is
/// refused before that (§7), the list that it is converted to decides. The tidier looks at no grid (§10), so its kinds stay as they are drawn.
pub fn make(kind: &str, r: &mut Random) -> Option<Vec<u8>> {
    let make = find(kind)?;
    let first = draw(kind, make, r);
    let lists = [&OFF_GRID[..], &normal::OFF_GRID, &upright::OFF_GRID, &table::OFF_GRID].concat();
    let by_design = lists.contains(&kind) || off_grid::KINDS.iter().chain(&tidy::KINDS).any(|(name, _)| *name == kind);
    let limits = !kind.starts_with("large-");
    if by_design || !refused_by_10(&first, limits) || r.once_in(4) {
        return Some(first);
    }
    let again = (0..DRAWINGS).map(|_| draw(kind, make, r)).find(|text| !refused_by_10(text, limits));
    Some(again.unwrap_or(first))
}

/// The kind of this name, of any set.
pub fn find(kind: &str) -> Option<Make> {
    let later = old::KINDS.iter().chain(&old::LONG).chain(&normal::KINDS).chain(&normal::ALONE).chain(&upright::KINDS).chain(&upright::ALONE);
    let last = tidy::KINDS.iter().chain(&table::KINDS).chain(&table::ALONE);
    let mut all = BASE.iter().chain(&inside::KINDS).chain(&off_grid::KINDS).chain(&ALONE).chain(later).chain(last);
    all.find(|(name, _)| *name == kind).map(|(_, make)| *make)
}

/// Whether the job program answers a text by 10, or the library does, which has not its limits; of a strip, its list.
fn refused_by_10(text: &[u8], limits: bool) -> bool {
    let job = text::read(text).filter(|job| !limits || text::within_limits(job));
    job.is_some_and(|job| off(&job))
}

/// Whether the job, with its triangles listed, is refused by 10.
fn off(job: &Job) -> bool {
    bounds::check(&convert::as_list(job)) == Err(10)
}

/// One drawing of a kind.
fn draw(kind: &str, make: Make, r: &mut Random) -> Vec<u8> {
    let text = text::write(&make(r));
    match kind {
        // Each pair begins at different ways, so that together they show all of them sooner.
        "damaged" | "damaged-strip" | "damaged-normal" | "damaged-upright" | "damaged-tidy" | "damaged-table" => {
            damage::damage(r.turn(&damage::WAYS), &text, r)
        }
        "damaged-sign" | "damaged-strip-sign" => damage::damage_line("sign=", r.turn(&damage::SIGNS), &text),
        "damaged-upright-line" | "damaged-strip-upright-line" => damage::damage_line("upright=", r.turn(&damage::UPRIGHTS), &text),
        "damaged-table-line" | "damaged-strip-table-line" => damage::damage_line("table=", r.turn(&damage::TABLES), &text),
        "damaged-small" | "damaged-strip-no-indices" => {
            let mut ways = damage::WAYS;
            ways.rotate_left(damage::WAYS.len() / 2);
            damage::damage(r.turn(&ways), &text, r)
        }
        _ => text.into(),
    }
}

// Grids.

/// Counts whose product is at most `most`.
fn counts(r: &mut Random, most: u32) -> [u32; 3] {
    let mut count = [1; 3];
    let order = r.pick(&[[0, 1, 2], [0, 2, 1], [1, 0, 2], [1, 2, 0], [2, 0, 1], [2, 1, 0]]);
    let mut left = most;
    for (n, axis) in order.into_iter().enumerate() {
        let top = if n == 2 || r.once_in(6) { left } else { left.min(9) };
        count[axis] = r.between(1, top.min(24));
        left /= count[axis];
    }
    count
}

/// A grid of a plain or an odd measure, well within bounds. Mostly small.
pub fn grid(r: &mut Random) -> Grid {
    let most = r.pick(&[4, 12, 30, 30, 64, 64, 125, 216]);
    let count = counts(r, most);
    let (first, size) = match r.below(6) {
        0 => ([0.0; 3], [1.0; 3]),
        1 => ([0.5; 3], [1.0; 3]),
        2 => ([0; 3].map(|_| r.between(0, 16) as f32 * 0.5 - 4.0), [0; 3].map(|_| r.pick(&[0.25, 0.5, 1.0, 2.0]))),
        3 => ([0; 3].map(|_| r.unit() * 10.0), [0.1; 3]),
        4 => ([0; 3].map(|_| r.unit() * 100.0), [0; 3].map(|_| 0.05 + r.unit().abs() * 3.0)),
        _ => ([0; 3].map(|_| r.unit() * 1000.0), [0; 3].map(|_| r.unit().abs() * 20.0 + 0.01)),
    };
    Grid { first, size, count, upright: None }
}

fn span(grid: &Grid) -> [f64; 3] {
    grid.count.map(|n| f64::from(n) - 0.5)
}

// Jobs out of a grid and a mesh in cell units.

pub fn job(grid: Grid, mesh: &Mesh, r: &mut Random) -> Job {
    let vertices = mesh.vertices.iter().map(|v| place(&grid, *v)).collect();
    let indices = Some(mesh.triangles.iter().flatten().copied().collect());
    let queue = if r.once_in(12) { r.between(0, MOST_ENTRIES) } else { MOST_ENTRIES };
    let pops = r.pick(&[100_000, 1_000_000, u32::MAX]);
    Job { grid, topology: Topology::List, sign: SignMethod::Raycast, vertices, indices, queue, pops, edition: None }
}

/// A place in cell units as a point, held within the bounds.
pub fn place(grid: &Grid, at: [f64; 3]) -> [f32; 3] {
    [0, 1, 2].map(|axis| {
        let x = f64::from(grid.first[axis]) + at[axis] * f64::from(grid.size[axis]);
        (x as f32).clamp(-BOUND, BOUND)
    })
}

pub fn shuffle<T>(list: &mut [T], r: &mut Random) {
    for i in (1..list.len()).rev() {
        list.swap(i, r.below(i as u64 + 1) as usize);
    }
}

// Closed hulls.

/// Low and high within the grid's reach, in steps of `step`.
fn limits(grid: &Grid, r: &mut Random, step: f64) -> ([f64; 3], [f64; 3]) {
    let mut ends = ([0.0; 3], [0.0; 3]);
    for axis in 0..3 {
        let steps = (f64::from(grid.count[axis] + 1) / step) as u32;
        let a = r.between(0, steps);
        let b = r.between(0, steps);
        ends.0[axis] = f64::from(a.min(b)) * step - 1.0;
        ends.1[axis] = f64::from(a.max(b)) * step - 1.0;
    }
    ends
}

fn closed_box(r: &mut Random) -> Job {
    let grid = grid(r);
    let (mut low, mut high) = limits(&grid, r, 0.25);
    for axis in 0..3 {
        low[axis] -= f64::from(r.unit().abs()) * 0.2;
        high[axis] += f64::from(r.unit().abs()) * 0.2;
    }
    let mut mesh = shapes::cuboid(low, high);
    shuffle(&mut mesh.triangles, r);
    job(grid, &mesh, r)
}

fn box_on_centres(r: &mut Random) -> Job {
    let grid = grid(r);
    let (low, high) = limits(&grid, r, 1.0);
    job(grid, &shapes::cuboid(low, high), r)
}

fn box_halves(r: &mut Random) -> Job {
    let grid = grid(r);
    let (low, high) = limits(&grid, r, 0.5);
    job(grid, &shapes::cuboid(low, high), r)
}

fn box_on_grid_box(r: &mut Random) -> Job {
    let grid = grid(r);
    let high = span(&grid);
    job(grid, &shapes::cuboid([-0.5; 3], high), r)
}

fn box_around_grid(r: &mut Random) -> Job {
    let grid = grid(r);
    let margin = r.pick(&[0.75, 3.0, 50.0]);
    let high = span(&grid).map(|x| x + margin);
    job(grid, &shapes::cuboid([-0.5 - margin; 3], high), r)
}

/// A floor through a layer of centres, alone or as the lid of a box, whose walls lie between the outermost centres and the sides
/// of the grid's box: distances of 0.
fn flat_floor(r: &mut Random) -> Job {
    let grid = grid(r);
    let axis = r.below(3) as usize;
    let mut low = [-0.25; 3];
    let mut high = span(&grid).map(|x| x - 0.25);
    high[axis] = f64::from(r.between(0, grid.count[axis] - 1));
    if r.once_in(3) {
        low[axis] = high[axis];
    }
    job(grid, &shapes::cuboid(low, high), r)
}

fn two_boxes(r: &mut Random) -> Job {
    let grid = grid(r);
    let (low, high) = limits(&grid, r, 0.5);
    let mut mesh = shapes::cuboid(low, high);
    let (low, high) = limits(&grid, r, 0.25);
    join(&mut mesh, shapes::cuboid(low, high));
    job(grid, &mesh, r)
}

pub fn join(mesh: &mut Mesh, other: Mesh) {
    let base = mesh.vertices.len() as u32;
    mesh.vertices.extend(other.vertices);
    mesh.triangles.extend(other.triangles.iter().map(|t| t.map(|v| v + base)));
}

/// Middle and half widths of a body that fills a good part of the grid.
pub fn body(grid: &Grid, r: &mut Random) -> ([f64; 3], [f64; 3]) {
    let middle = grid.count.map(|n| (f64::from(n) - 1.0) / 2.0 + f64::from(r.unit()) * 0.3);
    let half = grid.count.map(|n| f64::from(n) * (0.3 + 0.25 * f64::from(r.unit().abs())));
    (middle, half)
}

fn sphere(r: &mut Random) -> Job {
    let grid = grid(r);
    let (middle, half) = body(&grid, r);
    let mesh = shapes::sphere(middle, half, r.between(2, 6), r.between(3, 10));
    job(grid, &mesh, r)
}

/// As many facets as a job may have, over hundreds of cells: older entries still spread.
fn sphere_fine(r: &mut Random) -> Job {
    let mut grid = grid(r);
    grid.count = r.pick(&[[8, 8, 8], [7, 9, 8], [6, 7, 8], [5, 10, 10]]);
    let (middle, half) = body(&grid, r);
    let mesh = shapes::sphere(middle, half, r.between(7, 9), r.between(12, 16));
    job(grid, &mesh, r)
}

fn tank(r: &mut Random, plate: bool) -> Job {
    let grid = grid(r);
    let (middle, half) = body(&grid, r);
    let mesh = shapes::tank(middle, half[0].min(half[1]), half[2], r.between(3, 16), plate);
    job(grid, &mesh, r)
}

/// Two or three plates that cross, each on a layer of centres: t / size is a whole number for many hits. The ends of a
/// plate are odd, so that no ray meets its diagonal.
fn plates_on_centres(r: &mut Random) -> Job {
    let mut grid = grid(r);
    if !r.once_in(3) {
        grid.first = [0; 3].map(|_| r.between(0, 8) as f32 * 0.5);
        grid.size = [0; 3].map(|_| r.pick(&[0.5, 1.0, 3.0, 0.1]));
    }
    let mut mesh = Mesh::default();
    for axis in 0..3 {
        if axis < 2 || r.once_in(2) {
            let mut low = [0; 3].map(|_| -0.6 - f64::from(r.unit().abs()));
            let mut high = grid.count.map(|n| f64::from(n) - 0.4 + f64::from(r.unit().abs()));
            low[axis] = f64::from(r.between(0, grid.count[axis] - 1));
            high[axis] = low[axis];
            // A cuboid without height is the plate twice, and flat sides; the first plate alone is kept.
            let mut plate = shapes::cuboid(low, high);
            plate.triangles = plate.triangles[shapes::cuboid_face(axis)].to_vec();
            join(&mut mesh, plate);
        }
    }
    job(grid, &mesh, r)
}

// Meshes without order.

fn soup(r: &mut Random) -> Job {
    let grid = grid(r);
    let n = r.between(1, 12);
    let mesh = shapes::soup(r, -1.0, span(&grid), n);
    job(grid, &mesh, r)
}

/// Corners on centres and halfway between them, so that many distances are equal.
fn soup_lattice(r: &mut Random) -> Job {
    let mut job = soup(r);
    let grid = job.grid.clone();
    for v in &mut job.vertices {
        *v = place(&grid, grid.count.map(|n| f64::from(r.between(0, 2 * n)) * 0.5 - 0.5));
    }
    job
}

/// Triangles that reach far beyond the grid on all sides, so that snapping clamps, and are off it on no axis.
fn soup_beyond(r: &mut Random) -> Job {
    let grid = grid(r);
    let n = r.between(1, 6);
    let far = r.pick(&[5.0, 50.0, 5000.0]);
    let mesh = shapes::soup(r, -far, [far; 3], n);
    let mut job = job(grid, &mesh, r);
    draw_off_grid_again(&mut job, -far, [far; 3], r);
    job
}

/// Draws those triangles of a soup again that lie off the grid, until none does.
fn draw_off_grid_again(job: &mut Job, low: f64, high: [f64; 3], r: &mut Random) {
    for triangle in job.vertices.chunks_exact_mut(3) {
        while bounds::off_grid(&job.grid, [triangle[0], triangle[1], triangle[2]]) {
            let again = shapes::soup(r, low, high, 1);
            triangle.iter_mut().zip(again.vertices).for_each(|(v, at)| *v = place(&job.grid, at));
        }
    }
}

/// Large triangles over hundreds of cells.
fn soup_many_cells(r: &mut Random) -> Job {
    let mut grid = grid(r);
    grid.count = r.pick(&[[8, 8, 8], [20, 5, 5], [1, 20, 20], [6, 7, 8], [4, 25, 5]]);
    let n = r.between(2, 6);
    let mesh = shapes::soup(r, -1.0, span(&grid), n);
    job(grid, &mesh, r)
}

fn one_triangle(r: &mut Random) -> Job {
    let grid = grid(r);
    let mesh = shapes::soup(r, -1.0, span(&grid), 1);
    job(grid, &mesh, r)
}

/// Triangles with two or three corners alike, by number or by place, among proper ones.
fn degenerate(r: &mut Random) -> Job {
    let mut job = if r.once_in(2) { soup(r) } else { soup_lattice(r) };
    let indices = job.indices.as_mut().unwrap();
    for t in 0..indices.len() / 3 {
        let [a, b, c] = [indices[3 * t], indices[3 * t + 1], indices[3 * t + 2]];
        let triple = match r.below(7) {
            0 => [a, a, c],
            1 => [a, b, b],
            2 => [a, b, a],
            3 => [a, a, a],
            4 => {
                job.vertices[b as usize] = job.vertices[a as usize];
                [a, b, c]
            }
            5 => {
                job.vertices[c as usize] = job.vertices[b as usize].map(|x| if x == 0.0 { -x } else { x });
                [a, b, c]
            }
            _ => [a, b, c],
        };
        indices[3 * t..3 * t + 3].copy_from_slice(&triple);
    }
    job
}

/// Three different corners on one line.
fn collinear(r: &mut Random) -> Job {
    let mut job = if r.once_in(2) { soup(r) } else { soup_lattice(r) };
    for t in 0..job.vertices.len() / 3 {
        let (a, b) = (job.vertices[3 * t], job.vertices[3 * t + 1]);
        let part = r.pick(&[0.5, 0.25, 2.0, -1.0, 0.3]);
        if !r.once_in(4) {
            job.vertices[3 * t + 2] = [0, 1, 2].map(|axis| a[axis] + (b[axis] - a[axis]) * part);
        }
    }
    job
}

/// Long triangles of next to no width.
fn slivers(r: &mut Random) -> Job {
    let mut job = soup(r);
    for t in 0..job.vertices.len() / 3 {
        let a = job.vertices[3 * t];
        let width = r.pick(&[1e-2, 1e-4, 1e-6]);
        job.vertices[3 * t + 1] = [0, 1, 2].map(|axis| a[axis] + r.unit() * width);
    }
    job
}

/// Facets that come again: with the same numbers, turned, or with the other winding.
fn repeated(r: &mut Random) -> Job {
    let mut job = match r.below(3) {
        0 => closed_box(r),
        1 => box_on_centres(r),
        _ => soup_lattice(r),
    };
    let indices = job.indices.as_mut().unwrap();
    for _ in 0..r.between(1, 8) {
        let t = 3 * r.below(indices.len() as u64 / 3) as usize;
        let [a, b, c] = [indices[t], indices[t + 1], indices[t + 2]];
        indices.extend(r.pick(&[[a, b, c], [b, c, a], [a, c, b], [c, b, a]]));
    }
    job
}

/// The same corner bits under other vertex numbers.
fn repeated_vertices(r: &mut Random) -> Job {
    let mut job = if r.once_in(2) { closed_box(r) } else { soup_lattice(r) };
    let n = job.vertices.len() as u32;
    job.vertices.extend(job.vertices.clone());
    for index in job.indices.as_mut().unwrap() {
        if r.once_in(2) {
            *index += n;
        }
    }
    let again: Vec<u32> = job.indices.iter().flatten().take(6).map(|i| (i + n) % (2 * n)).collect();
    job.indices.as_mut().unwrap().extend(again);
    job
}

// Numbers at the ends.

fn below_bound() -> f32 {
    f32::from_bits(BOUND.to_bits() - 1)
}

fn above(x: f32) -> f32 {
    f32::from_bits(x.to_bits() + 1)
}

fn below(x: f32) -> f32 {
    f32::from_bits(x.to_bits() - 1)
}

fn at_bounds(r: &mut Random) -> Job {
    let mut job = soup(r);
    if r.once_in(2) {
        job.grid.size = [0; 3].map(|_| r.pick(&[MOST_SIZE, 500.0, LEAST_SIZE, 1.0]));
    }
    for x in job.vertices.iter_mut().flatten() {
        if r.once_in(3) {
            *x = r.pick(&[BOUND, -BOUND, below_bound(), -below_bound(), 0.0, -0.0]);
        }
    }
    job
}

fn grid_at_bounds(r: &mut Random) -> Job {
    let mut job = soup(r);
    for axis in 0..3 {
        job.grid.first[axis] = r.pick(&[BOUND, -BOUND, below_bound(), -below_bound(), 0.0]);
        job.grid.size[axis] = r.pick(&[MOST_SIZE, below(MOST_SIZE), 1.0, LEAST_SIZE, above(LEAST_SIZE)]);
    }
    let n = job.vertices.len() as u32 / 3;
    let mesh = shapes::soup(r, -2.0, span(&job.grid), n);
    for (v, at) in job.vertices.iter_mut().zip(&mesh.vertices) {
        *v = place(&job.grid, *at);
    }
    job
}

/// A box in cells of the given sizes.
fn sized(r: &mut Random, sizes: &[f32]) -> Job {
    let mut grid = grid(r);
    grid.size = [0; 3].map(|_| r.pick(sizes));
    grid.first = [0; 3].map(|_| r.unit() * r.pick(&[0.0, 1.0, 100.0]));
    let (low, high) = limits(&grid, r, 0.5);
    let mesh = if r.once_in(2) { shapes::cuboid(low, high) } else { shapes::soup(r, -1.0, span(&grid), 4) };
    job(grid, &mesh, r)
}

fn small_cells(r: &mut Random) -> Job {
    sized(r, &[LEAST_SIZE, above(LEAST_SIZE), 0.001, 0.002])
}

fn large_cells(r: &mut Random) -> Job {
    sized(r, &[MOST_SIZE, below(MOST_SIZE), 1000.0, 777.7])
}

fn uneven_cells(r: &mut Random) -> Job {
    sized(r, &[LEAST_SIZE, MOST_SIZE, 1.0, 0.1])
}

fn zeros_and_subnormals(r: &mut Random) -> Job {
    let mut job = if r.once_in(2) { soup_lattice(r) } else { one_triangle(r) };
    job.grid.first = [0; 3].map(|_| r.pick(&[0.0, -0.0, f32::from_bits(1), -f32::from_bits(0x7f_ffff)]));
    for x in job.vertices.iter_mut().flatten() {
        if r.once_in(2) {
            *x = r.pick(&[
                0.0,
                -0.0,
                f32::from_bits(1),
                -f32::from_bits(1),
                f32::from_bits(0x7f_ffff),
                f32::MIN_POSITIVE,
            ]);
        }
    }
    job
}

/// Corners that are alike as numbers and not as bits: +0 and −0. Where that takes a triangle off the grid, grid and mesh are moved
/// to where 0 is within the grid, and the same corners are set.
fn signed_zero_corners(r: &mut Random) -> Job {
    let mut job = if r.once_in(5) { soup_lattice(r) } else { soup(r) };
    let (before, mut same) = (job.clone(), r.clone());
    set_signed_zeros(&mut job, r);
    if off(&job) {
        job = before;
        for axis in 0..3 {
            let cell = r.between(0, job.grid.count[axis] - 1);
            let by = job.grid.centre_on(axis, cell) + 0.4 * r.unit() * job.grid.size[axis];
            job.grid.first[axis] -= by;
            job.vertices.iter_mut().for_each(|v| v[axis] -= by);
        }
        set_signed_zeros(&mut job, &mut same);
    }
    job
}

fn set_signed_zeros(job: &mut Job, r: &mut Random) {
    for t in 0..job.vertices.len() / 3 {
        let [one, other] = r.turn(&[[0, 1], [1, 2], [0, 2]]).map(|corner| 3 * t + corner);
        let axis = r.below(3) as usize;
        job.vertices[one][axis] = r.pick(&[0.0, -0.0]);
        job.vertices[other] = job.vertices[one];
        job.vertices[other][axis] = -job.vertices[one][axis];
    }
}

/// Two corners alike and a third a hair away: the squared length of the segment is 0. Where the point lies beside
/// the segment the parameter is 0/0.
fn underflow_segment(r: &mut Random) -> Job {
    let mut job = one_triangle(r);
    let grid = job.grid.clone();
    let at = place(&grid, grid.count.map(|n| f64::from(r.between(0, n - 1))));
    let hair = f32::from_bits((r.between(1, 60)) << 23);
    // Near zero alone is a hair a different number.
    let axis = r.below(3) as usize;
    let mut near = at;
    near[axis] = 0.0;
    let mut other = near;
    other[axis] = if r.once_in(2) { hair } else { -hair };
    if r.once_in(2) {
        job.grid.first[axis] = 0.0;
    }
    job.vertices = match r.below(3) {
        0 => vec![near, near, other],
        1 => vec![near, other, other],
        _ => vec![near, other, near],
    };
    job
}

/// Three different corners within a hair of each other near zero.
fn underflow_triangle(r: &mut Random) -> Job {
    let mut job = one_triangle(r);
    if r.once_in(2) {
        job.grid.first = [0.0; 3];
    }
    let exponent = r.between(1, 90);
    job.vertices = (0..3).map(|_| [0; 3].map(|_| f32::from_bits(exponent << 23) * r.unit())).collect();
    if r.once_in(3) {
        let axis = r.below(3) as usize;
        job.vertices.iter_mut().for_each(|v| v[axis] = 0.0);
    }
    job
}

/// The same, laid so that seeding meets numbers alone and the 0/0 comes while spreading.
fn underflow_in_spreading(r: &mut Random) -> Job {
    let mut job = one_triangle(r);
    let plane = r.pick(&[[0, 1, 2], [1, 2, 0], [2, 0, 1]]);
    let [x, y, z] = plane;
    job.grid = Grid { first: [0.0; 3], size: [1.0; 3], count: [1; 3], upright: None };
    job.grid.count[x] = r.between(2, 9);
    job.grid.count[y] = r.between(2, 5);
    job.grid.count[z] = r.between(1, 3);
    let tiny = f32::from_bits(r.between(10, 20) << 23);
    let slope = r.pick(&[3.0, 5.0, 1.0, -3.0, -3.0, -5.0]);
    // The grid is moved instead of the triangle: a hair counts near zero alone.
    job.grid.first[x] = -0.5;
    job.grid.first[y] = -0.5;
    let mut far = [0.0; 3];
    far[x] = tiny;
    far[y] = tiny * slope;
    job.vertices = vec![[0.0; 3], [0.0; 3], far];
    job
}

/// A 0/0 while spreading, and queue room that is just enough to come to it, or one too little: 6 or 7 by the order of the
/// run.
fn nan_or_full(r: &mut Random) -> Job {
    loop {
        let mut job = underflow_in_spreading(r);
        job.grid.count = job.grid.count.map(|n| n.max(2));
        job.queue = 0;
        while model::answer(&job).err() == Some(7) {
            job.queue += 1;
        }
        if model::answer(&job).err() == Some(6) {
            job.queue -= u32::from(r.once_in(3));
            return job;
        }
    }
}

/// A proper triangle two corners of which lie a hair apart: the weights of the inside may sum to 0, and 0/0 comes of it.
fn hair_corner(r: &mut Random) -> Job {
    let mut job = soup_lattice(r);
    let axis = r.below(3) as usize;
    job.grid.first[axis] = 0.0;
    for t in 0..job.vertices.len() / 3 {
        let (from, to) = r.pick(&[(0, 2), (0, 1), (1, 2)]);
        job.vertices[3 * t + from][axis] = 0.0;
        job.vertices[3 * t + to] = job.vertices[3 * t + from];
        job.vertices[3 * t + to][axis] = f32::from_bits(r.pick(&[1, 2, 0x10_0000, 0x80_0000]));
    }
    job
}

/// A tiny triangle, its corners all but on one line, for which some centre's distance is infinite: the weights' sum is
/// so small that its inverse overflows. No cell takes such a distance.
fn infinite_distance(r: &mut Random) -> Job {
    loop {
        let mut job = one_triangle(r);
        job.grid.first = [0; 3].map(|_| r.pick(&[0.0, 0.0, -1.0, 1.0, -0.5]));
        let scale = f32::from_bits(r.between(80, 102) << 23);
        let a = [0; 3].map(|_| r.unit() * scale * r.pick(&[1.0, 1.0, 1e-3, 1e-12]));
        let b = a.map(|x| x * r.unit() * 1e-10);
        let c = [0, 1, 2].map(|axis| a[axis] + (b[axis] - a[axis]) * r.pick(&[3.0, 3.0, 2.0]));
        let mut corners = [a, b, c];
        shuffle(&mut corners, r);
        let cells = (0..job.grid.cells()).map(|i| job.grid.centre(job.grid.coordinates(i)));
        if cells.into_iter().any(|p| model::geometry::distance(p, corners).is_infinite()) {
            job.vertices = corners.to_vec();
            if r.once_in(2) {
                // A plain triangle beside it.
                job.vertices.extend(one_triangle(r).vertices);
                job.indices.as_mut().unwrap().extend([3, 4, 5]);
            }
            return job;
        }
    }
}

// Topology.

fn strip(r: &mut Random) -> Job {
    let mut job = match r.below(3) {
        0 => soup(r),
        1 => soup_lattice(r),
        _ => closed_box(r),
    };
    job.topology = Topology::Strip;
    if r.once_in(3) {
        let n = job.vertices.len() as u64;
        job.indices = Some((0..r.between(0, 24)).map(|_| r.below(n) as u32).collect());
    }
    job
}

fn strip_no_indices(r: &mut Random) -> Job {
    let mut job = strip(r);
    job.indices = None;
    job
}

/// Vertices in threes, with one or two left over now and then.
fn list_no_indices(r: &mut Random) -> Job {
    let mut job = closed_box(r);
    job.vertices = job.indices.iter().flatten().map(|&i| job.vertices[i as usize]).collect();
    job.indices = None;
    let over = r.below(3) as usize;
    job.vertices.truncate(job.vertices.len() - over);
    job
}

fn left_over(r: &mut Random) -> Job {
    let mut job = soup(r);
    for _ in 0..r.between(1, 2) {
        job.indices.as_mut().unwrap().push(0);
    }
    job
}

/// The indices left over are not checked, whatever they are. In a strip none is left over.
fn left_over_bad(r: &mut Random) -> Job {
    let mut job = soup(r);
    for _ in 0..r.between(1, 2) {
        let bad = r.pick(&[job.vertices.len() as u32, u32::MAX, 1 << 31]);
        job.indices.as_mut().unwrap().push(bad);
    }
    if r.once_in(5) {
        job.topology = Topology::Strip;
    }
    job
}

/// Fewer than three indices, or vertices: no triangle, and nothing is checked.
fn few_indices(r: &mut Random) -> Job {
    let mut job = soup(r);
    let n = r.below(3) as usize;
    if r.once_in(2) {
        job.indices = Some(vec![r.pick(&[0, 7, u32::MAX]); n]);
    } else {
        job.vertices.truncate(n);
        job.indices = None;
    }
    job.topology = r.pick(&[Topology::List, Topology::Strip]);
    job
}

fn no_triangles(r: &mut Random) -> Job {
    let mut job = few_indices(r);
    if r.once_in(2) {
        job.vertices.clear();
        job.indices = r.pick(&[true, false]).then(Vec::new);
    }
    job.queue = r.pick(&[0, 1, MOST_ENTRIES]);
    job.pops = r.pick(&[0, 1, u32::MAX]);
    job
}

fn unused_vertices(r: &mut Random) -> Job {
    let mut job = soup(r);
    for _ in 0..r.between(1, 5) {
        job.vertices.push([0; 3].map(|_| r.unit() * BOUND));
    }
    let indices = job.indices.as_mut().unwrap();
    indices.truncate(3 * r.between(1, indices.len() as u32 / 3) as usize);
    job
}

// Queue room and pop limit, set by the model's own counts.

fn tight(r: &mut Random, set: fn(&mut Job, u32, u32, &mut Random)) -> Job {
    loop {
        let mut job = match r.below(5) {
            0 => soup(r),
            1 => soup_lattice(r),
            2 => closed_box(r),
            3 => sphere(r),
            _ => one_triangle(r),
        };
        (job.queue, job.pops) = (MOST_ENTRIES, u32::MAX);
        if let Ok(done) = model::answer(&job) {
            set(&mut job, done.pops, done.peak, r);
            return job;
        }
    }
}

// Refusals.

/// Just outside the bound on both sides, NaNs, infinities, and others far outside.
pub const BEYOND: [u32; 12] = [
    0x4980_0001,
    0xc980_0001,
    0x7fc0_0000,
    0x7f80_0000,
    0xff80_0000,
    0xff7f_ffff,
    0x7f80_0001,
    0xffc0_0000,
    0x4a00_0000,
    0xca00_0000,
    0x7f7f_ffff,
    0xffff_ffff,
];

fn count_zero(r: &mut Random) -> Job {
    let mut job = soup(r);
    job.grid.count[r.below(3) as usize] = 0;
    if r.once_in(2) {
        job.grid.count[r.below(3) as usize] = r.pick(&[0, 1, 1_024, 1_025, u32::MAX]);
        job.grid.count[r.below(3) as usize] = 0;
    }
    job
}

fn first_beyond(r: &mut Random) -> Job {
    let mut job = soup(r);
    job.grid.first[r.below(3) as usize] = f32::from_bits(r.turn(&BEYOND));
    job
}

fn size_beyond(r: &mut Random) -> Job {
    let mut job = soup(r);
    let special =
        [below(LEAST_SIZE), above(MOST_SIZE), 0.0, f32::NAN, -1.0, f32::INFINITY, -LEAST_SIZE, -0.0, f32::from_bits(1)];
    job.grid.size[r.below(3) as usize] = r.turn(&special);
    job
}

fn vertex_beyond(r: &mut Random) -> Job {
    let mut job = soup(r);
    let v = r.below(job.vertices.len() as u64) as usize;
    job.vertices[v][r.below(3) as usize] = f32::from_bits(r.turn(&BEYOND));
    job
}

fn unused_vertex_beyond(r: &mut Random) -> Job {
    let mut job = unused_vertices(r);
    job.vertices.last_mut().unwrap()[r.below(3) as usize] = f32::from_bits(r.pick(&BEYOND));
    job
}

fn index_beyond(r: &mut Random) -> Job {
    let mut job = if r.once_in(3) { strip(r) } else { soup(r) };
    let n = job.vertices.len() as u32;
    let indices = job.indices.as_mut().unwrap();
    if indices.is_empty() {
        indices.extend([0, 0, 0]);
    }
    let at = r.below(indices.len() as u64) as usize;
    indices[at] = r.pick(&[n, n, n + 1, u32::MAX, 1 << 31, 65_536]);
    job
}

/// Two or three of the refusals at once: the first in the table is given.
fn several_refusals(r: &mut Random) -> Job {
    let mut job = index_beyond(r);
    if r.once_in(2) {
        job.vertices[0][0] = f32::from_bits(r.pick(&BEYOND));
    }
    if r.once_in(2) {
        job.grid.size[1] = -1.0;
    }
    if r.once_in(2) {
        (job.queue, job.pops) = (0, 0);
    }
    if r.once_in(6) {
        job.queue = MOST_ENTRIES + 1;
    }
    job
}

// Limits.

/// Exactly the limit, or one more.
fn at_limit(r: &mut Random, which: u32) -> Job {
    let mut job = one_triangle(r);
    let over = r.turn(&[0, 1, 0]);
    match which {
        0 => {
            let count =
                r.pick(&[[8, 8, 8], [512, 1, 1], [1, 512, 1], [1, 1, 512], [2, 16, 16], [4, 128, 1], [32, 1, 16]]);
            job.grid.count =
                if over == 1 { r.pick(&[[513, 1, 1], [1, 27, 19], [9, 57, 1], [3, 9, 19]]) } else { count };
            let mesh = shapes::soup(r, -1.0, span(&job.grid), 1);
            job.vertices = mesh.vertices.iter().map(|v| place(&job.grid, *v)).collect();
        }
        1 => {
            let n = MOST_VERTICES + over;
            let corners = job.vertices;
            let stairs =
                |step: f32| (0..n).map(|i| corners[i as usize % 3].map(|x| x + i as f32 * step)).collect::<Vec<_>>();
            job.vertices = stairs(0.125);
            if r.once_in(2) {
                job.indices = None;
                job.topology = r.pick(&[Topology::List, Topology::Strip]);
            }
            // Steps that lead off the grid are made shorter.
            for halvings in 1..20 {
                if over == 0 && off(&job) {
                    job.vertices = stairs(0.125 / (1 << halvings) as f32);
                }
            }
        }
        2 => {
            let [most, most_of_list] = MOST_INDICES;
            let mut indices: Vec<u32> = (0..most + over).map(|_| r.between(0, 2)).collect();
            job.topology = r.pick(&[Topology::List, Topology::Strip]);
            if job.topology == Topology::List {
                indices.extend((most..most_of_list).map(|_| r.between(0, 2)));
            }
            job.indices = Some(indices);
        }
        _ => job.queue = MOST_ENTRIES + over,
    }
    job
}

fn beyond_limits(r: &mut Random) -> Job {
    let mut job = soup(r);
    match r.below(4) {
        0 => {
            job.grid.count =
                r.pick(&[[1_024, 1, 1], [1_025, 1, 1], [1_024, 1_024, 1], [102, 102, 100], [1, 1, u32::MAX]])
        }
        1 => job.vertices = vec![[0.0; 3]; r.pick(&[257, 300, 1_000])],
        2 => job.indices = Some(vec![0; r.pick(&[2_299, 2_500, 3_000])]),
        _ => job.queue = r.pick(&[2_049, 4_096, 1 << 31, u32::MAX]),
    }
    job
}

fn counts_that_wrap(r: &mut Random) -> Job {
    let mut job = one_triangle(r);
    job.grid.count = r.turn(&[
        [65_536, 65_536, 1],
        [1 << 22, 1 << 21, 1 << 21],
        [641, 6_700_417, 1],
        [1 << 31, 1 << 31, 4],
        [u32::MAX, 0, u32::MAX],
        [u32::MAX, u32::MAX, u32::MAX],
        [1, 1 << 31, 2],
        [65_536, 65_537, 1],
        [0, 0, 0],
    ]);
    job
}

fn large_numbers(r: &mut Random) -> Job {
    let mut job = soup(r);
    job.pops = r.pick(&[u32::MAX, u32::MAX - 1, 1 << 31, 999_999_999, 1_000_000_000]);
    job.queue = r.pick(&[2_048, 2_047, 999, 1_000, 100]);
    job
}

// Document 01's own points.

/// The listing, and the jobs of "Points on each side".
fn document_01(r: &mut Random) -> Job {
    let mut job = Job {
        grid: Grid { first: [1.0; 3], size: [1.0, 1.0, 2.0], count: [1; 3], upright: None },
        topology: Topology::List,
        sign: SignMethod::Raycast,
        vertices: vec![[0.0; 3], [4.0, 0.0, 0.0], [0.0, 4.0, 0.0]],
        indices: Some(vec![0, 1, 2]),
        queue: 8,
        pops: 100,
        edition: None,
    };
    match r.turn(&[0, 1, 2, 3, 4, 5, 6]) {
        0 => {}
        1 => job.grid.count = [2, 1, 1],
        2 => (job.grid.count, job.queue) = ([2, 1, 1], 1),
        3 => (job.grid.count, job.pops) = ([2, 1, 1], 1),
        4 => {
            job.grid.first = [0.0; 3];
            job.vertices = vec![[0.0; 3], [0.0; 3], [f32::from_bits(27 << 23), 0.0, 0.0]];
            // 2^-100
        }
        5 => (job.indices, job.queue) = (Some(vec![]), 0),
        _ => (job.grid.count, job.queue, job.pops) = ([2, 1, 1], 2, 2),
    }
    job
}

// Beyond the job program: for the model and the oracle alone.

fn large_grid(r: &mut Random) -> Grid {
    let n = r.pick(&[12, 20, 28]);
    Grid { count: [0; 3].map(|_| r.between(n / 2, n)), ..grid(r) }
}

fn lift(mut job: Job) -> Job {
    (job.queue, job.pops) = (u32::MAX, u32::MAX);
    job
}

fn large_sphere(r: &mut Random) -> Job {
    let grid = large_grid(r);
    let (middle, half) = body(&grid, r);
    let mesh = shapes::sphere(middle, half, r.between(6, 20), r.between(6, 30));
    lift(job(grid, &mesh, r))
}

fn large_tank(r: &mut Random) -> Job {
    let grid = large_grid(r);
    let (middle, half) = body(&grid, r);
    let plate = r.once_in(2);
    let mesh = shapes::tank(middle, half[0].min(half[1]), half[2], r.between(20, 200), plate);
    lift(job(grid, &mesh, r))
}

fn large_soup(r: &mut Random) -> Job {
    let grid = large_grid(r);
    let n = r.between(50, 1_500);
    let high = span(&grid);
    let mesh = shapes::soup(r, -2.0, high, n);
    let mut job = job(grid, &mesh, r);
    draw_off_grid_again(&mut job, -2.0, high, r);
    lift(job)
}

/// One triangle more than a job may have, or just as many.
fn too_many_triangles(r: &mut Random) -> Job {
    let mut job = one_triangle(r);
    job.grid.count = [1; 3];
    let triangles = 131_072 + r.between(0, 1);
    // A strip is refused by 13, which comes before 3.
    if r.once_in(3) {
        job.topology = Topology::Strip;
        job.indices = Some((0..triangles + 2).map(|i| i % 3).collect());
    } else {
        job.indices = Some((0..3 * triangles).map(|i| i % 3).collect());
    }
    lift(job)
}

/// One vertex more than a job may have, or just as many.
fn too_many_vertices(r: &mut Random) -> Job {
    let mut job = one_triangle(r);
    job.grid.count = [1; 3];
    let n = 393_216 + r.between(0, 1) as usize;
    job.vertices.resize(n, [0.0; 3]);
    lift(job)
}
