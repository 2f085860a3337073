//! Jobs that say the edition of the layer table (document 02, §11): in edition 2 a cell at distance zero counts half, and nothing but the rows looks at
//! it. The line is `table=1` or `table=2`, or there is none, which is edition 1; the kinds take these in turn, edition 2 three times of five, and with
//! them what they say of the upright axis. Many have floors and walls on layers of centres, whose cells are at −0 within a hull and at +0 outside.
//! Beside these stand jobs whose number is no edition, the kinds of the other sets with such a line, and texts whose line is spoiled. A kind
//! that has ways takes them in turn.

use crate::inside::{ends, hull_in, plane_in, plate};
use crate::kinds::{self, join, shuffle, Make};
use crate::normal::{layer_at_zero, plates_at, refuse_by};
use crate::random::Random;
use crate::shapes;
use crate::upright::{across, of_mesh, uneven_grid, SAID};
use model::topology::Topology;
use model::{Job, SignMethod};

pub const KINDS: [(&str, Make); 24] = [
    // Cells at −0 and at +0.
    ("table-floor", floor),
    ("table-wall", wall),
    ("table-floor-and-shelf", floor_and_shelf),
    ("table-zeros", |r| of(r, &["zero-distances", "flat-floor", "box-on-centres", "plates-on-centres", "grazing-corners", "soup-lattice"])),
    ("table-each-way", each_way),
    // No cell at zero: a magnitude just above it, none at all, and −f32::MAX.
    ("table-near-zero", near_zero),
    ("table-hull", hull),
    ("table-no-triangle", |r| Job { topology: Topology::List, ..of(r, &["no-triangles", "few-indices", "infinite-distance"]) }),
    ("table-at-max", |r| of(r, &["inside-at-max"])),
    // Normal signs: a centre on a facet is at −0; and at +0 where the square of its distance underflows.
    ("table-deck", |r| of(r, &["deck-flat", "centres-on-facets", "deck-with-pontoons", "centres-in-plane", "deck-wavy", "normal-of-zero"])),
    ("table-normal-zeros", normal_zeros),
    // What is refused, and what just not.
    ("table-no-edition", no_edition),
    ("table-refused", refused),
    ("table-room-and-pops", |r| of(r, &["queue-one-lower", "pops-one-lower", "both-exact", "queue-is-peak", "pops-exact", "both-one-lower"])),
    ("table-nan", |r| {
        of(r, &["underflow-in-spreading", "underflow-segment", "infinite-distance", "hair-corner", "nan-or-full", "underflow-triangle"])
    }),
    ("table-at-limits", |r| of(r, &["cells-at-limit", "vertices-at-limit", "counts-that-wrap", "list-at-limit", "queue-at-limit", "beyond-limits"])),
    // The other sets, each of their kinds in turn.
    ("table-base", |r| of(r, &kinds::of_set(Some("base")))),
    ("table-inside", |r| of(r, &kinds::of_set(Some("inside")))),
    ("table-off-grid", |r| of(r, &kinds::of_set(Some("off-grid")))),
    ("table-old", old),
    ("table-normal", |r| of(r, &kinds::of_set(Some("normal")))),
    ("table-upright", |r| said(r, find(r.turn(&kinds::of_set(Some("upright")))))),
    // Of the tidier any number is said.
    ("table-tidy", |r| Job { edition: r.turn(&ANY), ..find(r.turn(&kinds::of_set(Some("tidy"))))(r) }),
    // The text itself; the kind's job is spoiled afterwards.
    ("damaged-table", |r| Job { edition: r.turn(&[Some(2), Some(1), Some(0)]), ..hull(r) }),
];

/// By name alone: the line itself, spoiled in each way, in a list that says all that can be said every second time, and in a strip; and jobs beyond
/// the job program's limits.
pub const ALONE: [(&str, Make); 3] = [
    ("damaged-table-line", |r| {
        let sign = r.turn(&[SignMethod::Raycast, SignMethod::Normal]);
        let mut job = find("document-01")(r);
        (job.sign, job.grid.upright) = (sign, Some(r.turn(&[0, 1, 2])));
        job
    }),
    ("damaged-strip-table-line", |r| find("strip-box")(r)),
    ("large-table", |r| of(r, &["large-sphere", "large-normal", "large-tank", "large-soup"])),
];

/// Kinds that lie off the grid by design.
pub const OFF_GRID: [&str; 4] = ["table-refused", "table-off-grid", "table-upright", "table-tidy"];

/// What is said of the edition.
const EDITIONS: [Option<u32>; 5] = [Some(2), None, Some(2), Some(1), Some(2)];
/// Numbers that are no edition: next to the two, and such as have them for their first digit, or for their lowest bits.
pub const NO_EDITIONS: [u32; 16] =
    [0, 3, u32::MAX, 257, 65_538, 1 << 31, 21, 12, 4, 258, 65_537, (1 << 31) + 1, 20, 10, (1 << 31) + 2, 22];
/// What the tidier and the converter are told: an edition, or a number that is none.
const ANY: [Option<u32>; 7] = [Some(2), None, Some(3), Some(1), Some(0), Some(2), Some(u32::MAX)];

fn find(kind: &str) -> Make {
    kinds::find(kind).expect("a kind of another set")
}

/// A job that says one of the editions, or nothing, in turn.
fn said(r: &mut Random, make: Make) -> Job {
    Job { edition: r.turn(&EDITIONS), ..make(r) }
}

/// A job of these kinds, in turn, that says so, and one of four things of the upright axis.
fn of(r: &mut Random, kinds: &[&str]) -> Job {
    let mut job = said(r, find(r.turn(kinds)));
    job.grid.upright = r.turn(&SAID);
    job
}

// Cells at −0 and at +0.

/// A closed box with a plate on a layer of centres across the upright axis: as a floor within its walls, where the layer is at −0, or as its lid or
/// bottom, where it is at +0. A row counts it whole, in halves, or not.
fn floor(r: &mut Random) -> Job {
    let upright = r.turn(&SAID);
    on_centres(upright, upright.unwrap_or(2) as usize, r)
}

/// The same across another axis: every row has some such cells.
fn wall(r: &mut Random) -> Job {
    let upright = r.turn(&SAID);
    let step = r.turn(&[1, 2, 2, 1, 2, 1, 1, 2]);
    on_centres(upright, (upright.unwrap_or(2) as usize + step) % 3, r)
}

fn on_centres(upright: Option<u32>, axis: usize, r: &mut Random) -> Job {
    let grid = uneven_grid(r);
    let mut job = Job { queue: 2_048, edition: r.turn(&EDITIONS), ..plane_in(grid, axis, r) };
    job.grid.upright = upright;
    job
}

/// A closed box in one half of the grid with a plate on a layer of centres within it, which is at −0, and beside the box a second plate on a layer of
/// centres, the same or another, which is at +0.
fn floor_and_shelf(r: &mut Random) -> Job {
    let (upright, axis) = across(r);
    let along = (axis + r.between(1, 2) as usize) % 3;
    let mut grid = uneven_grid(r);
    grid.count[along] = r.between(4, 7);
    let half = f64::from(r.between(2, grid.count[along] - 2)) - 0.5;
    let (low, high) = ends(&grid, r);
    let mut layer = || f64::from(r.between(0, grid.count[axis] - 1));
    let (within, beside) = (layer(), layer());
    let with = |mut at: [f64; 3], axis: usize, place: f64| {
        at[axis] = place;
        at
    };
    let end = with(high, along, half - 0.21);
    let begin = with(low, along, half + 0.23);
    let mut mesh = shapes::cuboid(low, end);
    join(&mut mesh, plate(with(low, axis, within), with(end, axis, within), axis));
    join(&mut mesh, plate(with(begin, axis, beside), with(high, axis, beside), axis));
    shuffle(&mut mesh.triangles, r);
    let mut job = Job { edition: r.turn(&EDITIONS), ..of_mesh(grid, &mesh, r) };
    job.grid.upright = upright;
    job
}

/// Five jobs one after the other that differ in what they say of the edition alone, whatever the seed: nothing, 1, 2, and two numbers that are none.
fn each_way(r: &mut Random) -> Job {
    let mut same = Random::new(r.number() / 5, r.number() / 5);
    let make = same.turn(&[floor_and_shelf as Make, floor, normal_zeros, wall, hull, |r| of(r, &["zero-distances"])]);
    Job { edition: r.turn(&[None, Some(1), Some(2), Some(3), Some(0)]), ..make(&mut same) }
}

// No cell at zero.

/// A plate next to a layer of centres, in front of it or behind, within a closed box half of the time. It is so near that the square of the distance is
/// just above zero, 2^-148 at the least; or nearer, where that is 0: those cells are at zero, though they lie off the plate.
fn near_zero(r: &mut Random) -> Job {
    let away = f32::from_bits(r.turn(&[53 << 23, 52 << 23, 54 << 23, 1, 60 << 23, 50 << 23, 100 << 23]));
    let axis = r.below(3) as usize;
    let size = r.pick(&[0.5, 1.0, 2.0]);
    let grid = layer_at_zero(axis, size, r);
    let place = r.pick(&[away, -away]);
    let mut job = plates_at(grid, axis, &[(place, r.once_in(2))], r);
    if r.once_in(2) {
        let (low, high) = ends(&job.grid, r);
        let hull = shapes::cuboid(low, high);
        let n = job.vertices.len() as u32;
        job.vertices.extend(hull.vertices.iter().map(|v| kinds::place(&job.grid, *v)));
        job.indices.iter_mut().for_each(|list| list.extend(hull.triangles.iter().flatten().map(|v| v + n)));
    }
    (job.sign, job.edition) = (r.turn(&[SignMethod::Raycast, SignMethod::Normal]), r.turn(&EDITIONS));
    job.grid.upright = r.turn(&SAID);
    job
}

/// A closed tank or a box: a row of edition 2 is twice that of edition 1.
fn hull(r: &mut Random) -> Job {
    let grid = uneven_grid(r);
    let mesh = hull_in(&grid, r);
    Job { edition: r.turn(&EDITIONS), ..of_mesh(grid, &mesh, r) }
}

// Normal signs.

/// Plates across a layer of centres, so near to it that the square of the distance is 0, or on it: a centre in front is at +0, one behind or on it at
/// −0. Each covers a part of the layer, so that both are there.
fn normal_zeros(r: &mut Random) -> Job {
    let axis = r.below(3) as usize;
    let grid = layer_at_zero(axis, 1.0, r);
    let tiny = f32::from_bits(r.pick(&[20, 40, 45]) << 23);
    let ways = [[(-tiny, true), (tiny, true)], [(tiny, false), (0.0, true)], [(-tiny, true), (-tiny, false)], [(0.0, true), (0.0, false)]];
    let mut job = Job { edition: r.turn(&EDITIONS), ..plates_at(grid, axis, &r.turn(&ways), r) };
    // The first to the middle of the layer and the second from there on.
    let along = (axis + 1) % 3;
    let middle = job.grid.centre_on(along, job.grid.count[along] / 2) - 0.5 * job.grid.size[along];
    for (number, v) in job.vertices.iter_mut().enumerate() {
        v[along] = if number < 8 { v[along].min(middle - 0.125) } else { v[along].max(middle + 0.125) };
    }
    job.grid.upright = r.turn(&SAID);
    job
}

// What is refused.

/// Numbers that are no edition, with what would be done, and with what is refused by 9 or 1 before.
fn no_edition(r: &mut Random) -> Job {
    let make = find(r.turn(&["floor-inside", "document-01", "strip-box", "count-zero", "soup", "beyond-limits", "deck-flat"]));
    Job { edition: Some(r.turn(&NO_EDITIONS)), ..make(r) }
}

/// 14 alone and beside each number that comes before it, after it or in the run; and those alone, in an edition that there is.
fn refused(r: &mut Random) -> Job {
    let ways = [[14, 14], [14, 2], [1, 14], [14, 13], [14, 10], [14, 4], [14, 7], [14, 8], [14, 6], [2, 2], [1, 1], [13, 13], [10, 10], [4, 4], [7, 7], [8, 8]];
    let numbers = r.turn(&ways);
    let mut job = if numbers[1] == 6 { said(r, find("underflow-segment")) } else { hull(r) };
    let axis = r.below(3) as usize;
    for number in numbers {
        match number {
            14 => job.edition = Some(r.turn(&[0, 3, u32::MAX])),
            6 => {}
            number => refuse_by(number, &mut job, axis, r),
        }
    }
    job
}

/// Strips and lists for the converter, which is told any number.
fn old(r: &mut Random) -> Job {
    let make = find(r.turn(&[kinds::of_set(Some("old")), kinds::of_set(Some("long"))].concat()));
    Job { edition: r.turn(&ANY), ..make(r) }
}
