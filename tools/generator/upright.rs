//! Jobs that say which axis is upright (document 02, §9): the rows run along it, and nothing else looks at it. The line is `upright=x`, `y` or
//! `z`, or there is none, which is z; the kinds take these four in turn. The counts of a grid differ on all three axes where a kind has a grid of
//! its own, so that rows along another axis are other in number. Beside these stand the kinds of the other sets with such a line, and
//! texts whose line is spoiled. A kind that has ways takes them in turn.

use crate::inside::{hull_in, plane_in, roomy_grid, tank_along};
use crate::kinds::{self, job, shuffle, Make};
use crate::normal::{flat, refuse_by, roomy, sheet, wavy, Height};
use crate::random::Random;
use crate::shapes::{self, Mesh};
use model::grid::Grid;
use model::{Job, SignMethod};

pub const KINDS: [(&str, Make); 18] = [
    // Closed hulls, and a floor or a wall on a layer of centres.
    ("upright-hull", hull),
    ("upright-tank", tank),
    ("upright-floor", floor),
    ("upright-each-way", each_way),
    // Meshes without order, and layers that are many, or one.
    ("upright-soup", soup),
    ("upright-long", long),
    // Normal signs.
    ("upright-deck", deck),
    // What is refused, and what just not.
    ("upright-refused", refused),
    ("upright-grid-beyond", |r| of(r, &["count-zero", "first-beyond", "size-beyond"])),
    ("upright-room-and-pops", |r| of(r, &["queue-one-lower", "pops-one-lower", "both-exact", "queue-is-peak", "pops-exact", "both-one-lower"])),
    ("upright-nan", |r| of(r, &["underflow-in-spreading", "underflow-segment", "infinite-distance", "hair-corner", "nan-or-full"])),
    ("upright-at-limits", |r| of(r, &["cells-at-limit", "vertices-at-limit", "counts-that-wrap", "list-at-limit", "queue-at-limit", "beyond-limits"])),
    // The other sets, each of their kinds in turn.
    ("upright-base", |r| of(r, &kinds::of_set(Some("base")))),
    ("upright-inside", |r| of(r, &kinds::of_set(Some("inside")))),
    ("upright-off-grid", |r| of(r, &kinds::of_set(Some("off-grid")))),
    ("upright-old", |r| of(r, &[kinds::of_set(Some("old")), kinds::of_set(Some("long"))].concat())),
    ("upright-normal", |r| of(r, &kinds::of_set(Some("normal")))),
    // The text itself; the kind's job is spoiled afterwards.
    ("damaged-upright", |r| said(r.turn(&[Some(0), Some(1), Some(2)]), hull(r))),
];

/// By name alone: the line itself, spoiled in each way, in a list, with Normal signs every second time, and in a strip; and jobs beyond the job
/// program's limits.
pub const ALONE: [(&str, Make); 3] = [
    ("damaged-upright-line", |r| {
        let sign = r.turn(&[SignMethod::Raycast, SignMethod::Normal]);
        Job { sign, ..of(r, &["document-01"]) }
    }),
    ("damaged-strip-upright-line", |r| of(r, &["strip-box"])),
    ("large-upright", |r| of(r, &["large-sphere", "large-normal", "large-tank", "large-normal", "large-soup"])),
];

/// Kinds that lie off the grid by design.
pub const OFF_GRID: [&str; 2] = ["upright-refused", "upright-off-grid"];

/// What is said of the upright axis.
pub const SAID: [Option<u32>; 4] = [Some(0), Some(1), None, Some(2)];

/// A job of these kinds, in turn, that says one of the four, in turn.
fn of(r: &mut Random, kinds: &[&str]) -> Job {
    said(r.turn(&SAID), kinds::find(r.turn(kinds)).expect("a kind of another set")(r))
}

fn said(upright: Option<u32>, mut job: Job) -> Job {
    job.grid.upright = upright;
    job
}

/// A grid of some cells along each axis, with three different counts.
pub fn uneven_grid(r: &mut Random) -> Grid {
    let mut counts = [2, 3, 4, 5, 6];
    shuffle(&mut counts, r);
    Grid { count: [counts[0], counts[1], counts[2]], ..roomy_grid(r) }
}

/// A job with room for all entries.
pub fn of_mesh(grid: Grid, mesh: &Mesh, r: &mut Random) -> Job {
    said(r.turn(&SAID), Job { queue: 2_048, ..job(grid, mesh, r) })
}

/// A closed tank or a box.
fn hull(r: &mut Random) -> Job {
    let grid = uneven_grid(r);
    let mesh = hull_in(&grid, r);
    of_mesh(grid, &mesh, r)
}

/// A tank that lies, or stands, along each axis, with each axis upright: one along x with y upright and the like.
fn tank(r: &mut Random) -> Job {
    let ways = [0, 1, 2].map(|along| [1, 2, 3].map(|step| (along, SAID[(along + step) % 4])));
    let (along, upright) = r.turn(ways.as_flattened());
    let mut grid = uneven_grid(r);
    grid.count[along] = r.between(7, 9);
    let mesh = tank_along(&grid, along, f64::MAX, r);
    said(upright, of_mesh(grid, &mesh, r))
}

/// What is said, and the axis across which something lies: the upright one four times, and then another four times.
pub fn across(r: &Random) -> (Option<u32>, usize) {
    let (upright, step) = (r.turn(&SAID), r.turn(&[0, 0, 0, 0, 1, 2, 1, 2]));
    (upright, (upright.unwrap_or(2) as usize + step) % 3)
}

/// A closed box with a plate on a layer of centres, which are at −0 or +0 there. Across the upright axis a row counts, or does not count, a whole
/// layer of these; across another every row has some.
fn floor(r: &mut Random) -> Job {
    let (upright, axis) = across(r);
    let grid = uneven_grid(r);
    said(upright, plane_in(grid, axis, r))
}

/// Four jobs one after the other that differ in what they say alone, whatever the seed: a hull, facets without order or a deck.
fn each_way(r: &mut Random) -> Job {
    let mut same = Random::new(r.number() / 4, r.number() / 4);
    let make = same.turn(&[hull as Make, soup, deck]);
    said(r.turn(&SAID), make(&mut same))
}

/// Facets anywhere within the grid's box.
fn soup(r: &mut Random) -> Job {
    let grid = uneven_grid(r);
    let n = r.between(2, 8);
    let mesh = shapes::soup(r, -0.4, grid.count.map(|n| f64::from(n) - 0.6), n);
    of_mesh(grid, &mesh, r)
}

/// A box in as many cells as a job may have, or nearly, most of them along one axis: hundreds of rows, or one.
fn long(r: &mut Random) -> Job {
    let ways = [[512, 1, 1], [1, 1, 512], [1, 512, 1], [2, 1, 255], [170, 3, 1], [1, 4, 127]].map(|count| SAID.map(|upright| (count, upright)));
    let mut ways: Vec<_> = ways.as_flattened().to_vec();
    // So that the first turns have an axis of many cells upright, and then one of few.
    ways.sort_by_key(|(count, upright)| count[upright.unwrap_or(2) as usize] < 100);
    let (count, upright) = r.turn(&ways);
    let mut grid = roomy_grid(r);
    grid.count = count;
    let high = grid.count.map(|n| f64::from(n) - 0.75 - f64::from(n / 8) * f64::from(r.unit().abs()));
    let mesh = shapes::cuboid([-0.25; 3], high);
    said(upright, of_mesh(grid, &mesh, r))
}

/// An open deck.
fn deck(r: &mut Random) -> Job {
    let (upright, axis) = across(r);
    let grid = uneven_grid(r);
    let mesh = sheet(&grid, axis, r.turn(&[flat as Height, wavy, flat]), None, r);
    said(upright, roomy(grid, &mesh, r))
}

/// Every number before the run and in it but 6, alone and beside one that comes later.
fn refused(r: &mut Random) -> Job {
    let ways = [[10, 10], [1, 1], [13, 13], [2, 2], [7, 7], [4, 4], [8, 8], [1, 10], [13, 10], [10, 7], [2, 13], [4, 10], [10, 8], [1, 13], [13, 4]];
    let numbers = r.turn(&ways);
    let mut job = hull(r);
    let axis = r.below(3) as usize;
    for number in numbers {
        refuse_by(number, &mut job, axis, r);
    }
    job
}
