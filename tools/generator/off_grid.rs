//! Kinds that turn on the sides of the grid's box (document 02, §6). A job is refused by 10 if on some axis all three corners of a
//! triangle lie below the box's minimum, or all three above its maximum. These lie on both sides of that, by a float, by a cell and
//! by far. Each kind takes its ways in turn, and eighteen turns have all of them.

use crate::inside::{ends, hull, next_up, plate, roomy_grid, within};
use crate::kinds::{job, place, Make};
use crate::random::Random;
use crate::shapes::{self, Mesh};
use model::geometry::Point;
use model::grid::Grid;
use model::topology::Topology;
use model::Job;

pub const KINDS: [(&str, Make); 6] = [
    ("touching", touching),
    ("beyond-a-corner", beyond_a_corner),
    ("across", across),
    ("ladder", ladder),
    ("unused-off-grid", unused_off_grid),
    ("between-centre-and-side", between_centre_and_side),
];

/// A side of the box: its axis, and whether it is the maximum.
type Side = (usize, bool);
const SIDES: [Side; 6] = [(0, false), (0, true), (1, false), (1, true), (2, false), (2, true)];

// Grids, places and triangles.

/// A grid of few cells: most of these jobs are about where a triangle lies, and not about its field.
fn few_cells(r: &mut Random) -> Grid {
    Grid { count: [0; 3].map(|_| r.between(2, 4)), ..roomy_grid(r) }
}

fn at_side(grid: &Grid, (axis, high): Side) -> f32 {
    if high {
        grid.box_maximum()[axis]
    } else {
        grid.box_minimum()[axis]
    }
}

/// The next float outwards.
fn one_float_out(x: f32, (_, high): Side) -> f32 {
    if high {
        next_up(x)
    } else {
        -next_up(-x)
    }
}

/// So many cells out from the side, or in from it where they are below 0.
fn out_by(grid: &Grid, side: Side, cells: f64) -> f32 {
    let outwards = if side.1 { cells } else { -cells };
    (f64::from(at_side(grid, side)) + outwards * f64::from(grid.size[side.0])) as f32
}

/// So many cells that no rounding takes them for none.
fn some_cells(r: &mut Random) -> f64 {
    f64::from(r.pick(&[0.25, 1.0, 3.0, 40.0_f32])) * (1.0 + f64::from(r.unit().abs()))
}

/// A point within the box.
fn inner(grid: &Grid, r: &mut Random) -> Point {
    let at = grid.count.map(|n| f64::from(n) * (f64::from(r.unit()) + 1.0) / 2.0 - 0.5);
    place(grid, [0, 1, 2].map(|axis| within(grid, axis, at[axis])))
}

/// A job of no triangle, or of a closed box within the grid's half the time.
fn beside(grid: Grid, r: &mut Random) -> Job {
    let (low, high) = ends(&grid, r);
    let mesh = if r.once_in(2) { shapes::cuboid(low, high) } else { Mesh::default() };
    Job { queue: 2_048, ..job(grid, &mesh, r) }
}

/// How many triangles a list has.
fn triangles(job: &Job) -> usize {
    job.indices.as_ref().map_or(0, Vec::len) / 3
}

/// Puts a triangle among those of a list, as the one with this number.
fn put(job: &mut Job, number: usize, corners: [Point; 3]) {
    let n = job.vertices.len() as u32;
    job.vertices.extend(corners);
    job.indices.as_mut().expect("a list with indices").splice(3 * number..3 * number, [n, n + 1, n + 2]);
}

fn put_anywhere(job: &mut Job, corners: [Point; 3], r: &mut Random) {
    let number = r.below(triangles(job) as u64 + 1) as usize;
    put(job, number, corners);
}

// The kinds.

/// A triangle with no corner on the inner side: one corner touches the side, or all three do, or none, and the nearest is one
/// float out (10).
fn touching(r: &mut Random) -> Job {
    let ways = SIDES.map(|side| ["one", "all", "none"].map(|touch| (side, touch)));
    let (side, touch) = r.turn(ways.as_flattened());
    let (axis, _) = side;
    let grid = match r.turn(&["told", "told", "at-zero", "told", "plain"]) {
        "told" => grid_that_tells(side, touch != "none", r),
        "at-zero" => grid_at_zero(side, r),
        _ => few_cells(r),
    };
    let at = at_side(&grid, side);
    // As numbers −0 and 0 are the same, so this one touches too.
    let at = if at == 0.0 && touch != "none" { -0.0 } else { at };
    let nearest = if touch == "none" { one_float_out(at, side) } else { at };
    let together = touch == "all" || touch == "none" && r.once_in(2);
    let which = r.below(3) as usize;
    let mut corners = [0; 3].map(|_| inner(&grid, r));
    for (number, corner) in corners.iter_mut().enumerate() {
        corner[axis] = if together || number == which { nearest } else { out_by(&grid, side, some_cells(r)) };
    }
    let mut job = beside(grid, r);
    put_anywhere(&mut job, corners, r);
    job
}

/// A grid whose side is 0: one float out is a subnormal.
fn grid_at_zero((axis, high): Side, r: &mut Random) -> Grid {
    let mut grid = few_cells(r);
    grid.size[axis] = r.pick(&[0.25, 0.5, 1.0, 2.0]);
    let cells = if high { 0.5 - grid.count[axis] as f32 } else { 0.5 };
    grid.first[axis] = cells * grid.size[axis];
    grid
}

/// A grid whose maximum is told from what else one may take for it: document 01 rounds first − size·0.5, then count·size, then
/// their sum. The last centre and half a cell, first + (count − 0.5)·size, and the sum rounded once all lie below it, so that what
/// touches the maximum lies above them, or all above it, so that what lies a float beyond it does not. The minimum has no second
/// reading of this sort, since half a size is exact.
fn grid_that_tells((axis, high): Side, others_below: bool, r: &mut Random) -> Grid {
    loop {
        let mut grid = few_cells(r);
        grid.first[axis] = r.unit() * 20.0;
        grid.size[axis] = 0.05 + r.unit().abs() * 3.0;
        let (first, size, count) = (grid.first[axis], grid.size[axis], grid.count[axis]);
        let maximum = grid.box_maximum()[axis];
        let others = [
            grid.centre_on(axis, count - 1) + size * 0.5,
            first + (count as f32 - 0.5) * size,
            (count as f32).mul_add(size, grid.box_minimum()[axis]),
        ];
        if !high || others.iter().all(|&other| if others_below { other < maximum } else { other > maximum }) {
            return grid;
        }
    }
}

/// Triangles that lie wholly beyond an edge of the box and wholly beyond a corner of it, slantwise, so that no axis has all three
/// corners on its outer side.
fn beyond_a_corner(r: &mut Random) -> Job {
    // An edge runs along an axis. It and the corner take turns of their own.
    let edges = [0, 1, 2].map(|along| [0, 1, 2, 3].map(|signs| (along, [signs & 1 == 1, signs & 2 == 2])));
    let (along, [u_high, v_high]) = r.turn(edges.as_flattened());
    let signs = r.turn(&[0, 1, 2, 3, 4, 5, 6, 7]);
    let grid = few_cells(r);
    let scale = f64::from(r.pick(&[0.4, 1.0, 1.0, 30.0_f32]));
    let mut of_edge = [0; 3].map(|_| inner(&grid, r));
    let mut of_corner = of_edge;
    let (u, v) = (((along + 1) % 3, u_high), ((along + 2) % 3, v_high));
    // Out of the box by so many cells. Into it by one at most, or the triangle would come to the opposite side.
    let out = |side: Side, cells: f64| out_by(&grid, side, if cells < 0.0 { cells.max(-1.0) } else { cells });
    for (corner, [at_u, at_v]) in of_edge.iter_mut().zip([[3.0, -1.0], [-1.0, 3.0], [2.0, 2.0]]) {
        (corner[u.0], corner[v.0]) = (out(u, at_u * scale), out(v, at_v * scale));
    }
    for (number, corner) in of_corner.iter_mut().enumerate() {
        for axis in 0..3 {
            corner[axis] = out((axis, signs >> axis & 1 == 1), if axis == number { -scale } else { 3.0 * scale });
        }
    }
    let mut job = beside(grid, r);
    put_anywhere(&mut job, of_edge, r);
    put_anywhere(&mut job, of_corner, r);
    job
}

/// Triangles that stick out on one side of the box, on two, or all round, and are off it on no axis.
fn across(r: &mut Random) -> Job {
    let ways = ["below-and-in", "below-and-above", "above-and-in", "above-and-below", "in-between", "around"];
    let ways = ways.map(|way| [0, 1, 2].map(|axis| (way, axis)));
    let (way, axis) = r.turn(ways.as_flattened());
    let grid = few_cells(r);
    let (low, high) = ((axis, false), (axis, true));
    let mut corners = [0; 3].map(|_| inner(&grid, r));
    let mut set =
        |corner: usize, side: Side, r: &mut Random| corners[corner][side.0] = out_by(&grid, side, some_cells(r));
    match way {
        "below-and-in" | "below-and-above" => {
            set(0, low, r);
            set(1, low, r);
            if way == "below-and-above" {
                set(2, high, r);
            }
        }
        "above-and-in" | "above-and-below" => {
            set(0, high, r);
            set(2, high, r);
            if way == "above-and-below" {
                set(1, low, r);
            }
        }
        "in-between" => {
            set(1, low, r);
            set(2, high, r);
        }
        _ => {
            // Across the axis: from beyond one edge of the box, so far along both other axes that it goes round the grid.
            for other in [(axis + 1) % 3, (axis + 2) % 3] {
                let cells = f64::from(grid.count.iter().sum::<u32>());
                (0..3).for_each(|corner| corners[corner][other] = out_by(&grid, (other, false), 1.0));
                corners[1 + usize::from(other == (axis + 1) % 3)][other] = out_by(&grid, (other, true), 2.0 * cells);
            }
        }
    }
    let turned = r.below(3) as usize;
    corners.rotate_left(turned);
    let mut job = beside(grid, r);
    put_anywhere(&mut job, corners, r);
    job
}

/// A closed tank or box within the grid, and one triangle off it as the first, a middle or the last one. Beside it in turn what is
/// refused later, by 7, 8 or 6 (10), and what is refused before, by 4, 2 or 1.
fn ladder(r: &mut Random) -> Job {
    let ways = SIDES.map(|side| ["first", "middle", "last"].map(|number| (side, number)));
    let (side, number) = r.turn(ways.as_flattened());
    let with = r.turn(&["nothing", "no-room", "no-pops", "a-nan", "an-index", "a-coordinate", "a-count"]);
    let (mut grid, mesh) = hull(r);
    if with == "a-nan" {
        // A hair counts near zero alone.
        grid.first = [0.0; 3];
    }
    let mut job = Job { queue: 2_048, ..job(grid, &mesh, r) };
    let some = r.below(triangles(&job) as u64) as usize;
    match with {
        "no-room" => job.queue = 0,
        "no-pops" => job.pops = 0,
        // Document 01's own: the first cell's centre lies beside a segment whose squared length is 0.
        "a-nan" => put(&mut job, some, [[0.0; 3], [0.0; 3], [f32::from_bits(27 << 23), 0.0, 0.0]]),
        "an-index" => {
            let beyond = r.pick(&[job.vertices.len() as u32 + 3, u32::MAX]);
            job.indices.as_mut().expect("a list with indices")[3 * some] = beyond;
        }
        "a-coordinate" => job.vertices[0][r.below(3) as usize] = r.pick(&[f32::NAN, f32::NEG_INFINITY, 1_048_576.125]),
        "a-count" => job.grid.count[(side.0 + 1) % 3] = 0,
        _ => {}
    }
    let nearest = f64::from(r.pick(&[0.01, 0.3, 1.0, 20.0_f32]));
    let mut corners = [0; 3].map(|_| inner(&Grid { count: job.grid.count.map(|n| n.max(1)), ..job.grid.clone() }, r));
    for corner in &mut corners {
        corner[side.0] = out_by(&job.grid, side, nearest * (1.0 + f64::from(r.unit().abs())));
    }
    let at = match number {
        "first" => 0,
        "middle" => 1 + r.below(triangles(&job) as u64 - 1) as usize,
        _ => triangles(&job),
    };
    put(&mut job, at, corners);
    job
}

/// Vertices off the grid that no triangle uses, and indices that name them and make no triangle.
fn unused_off_grid(r: &mut Random) -> Job {
    let way = r.turn(&[
        "unused-last",
        "unused-first",
        "one-left-over",
        "two-left-over",
        "few-of-a-list",
        "few-of-a-strip",
        "few-vertices",
        "vertices-left-over",
        "no-index",
    ]);
    let grid = few_cells(r);
    let (low, high) = ends(&grid, r);
    let mut job = Job { queue: 2_048, ..job(grid.clone(), &shapes::cuboid(low, high), r) };
    let some: Vec<Point> = (0..r.between(3, 5))
        .map(|_| {
            let side = r.pick(&SIDES);
            let mut at = inner(&grid, r);
            at[side.0] = out_by(&grid, side, some_cells(r));
            at
        })
        .collect();
    let n = job.vertices.len() as u32;
    let few = r.between(1, 2) as usize;
    match way {
        "unused-last" => job.vertices.extend(some),
        "unused-first" => {
            job.indices.iter_mut().flatten().for_each(|index| *index += some.len() as u32);
            job.vertices.splice(0..0, some);
        }
        "one-left-over" | "two-left-over" => {
            job.vertices.extend(some);
            job.indices
                .iter_mut()
                .for_each(|list| list.extend([n, n + 1].iter().take(1 + usize::from(way == "two-left-over"))));
        }
        "few-of-a-list" | "few-of-a-strip" => {
            job.vertices.extend(some);
            job.indices = Some(vec![n; few]);
            job.topology = if way == "few-of-a-list" { Topology::List } else { Topology::Strip };
        }
        "few-vertices" => {
            job.vertices = some[..few].to_vec();
            job.indices = None;
            job.topology = r.pick(&[Topology::List, Topology::Strip]);
        }
        "vertices-left-over" => {
            job.vertices =
                job.indices.iter().flatten().map(|&i| job.vertices[i as usize]).chain(some[..few].to_vec()).collect();
            job.indices = None;
        }
        _ => (job.vertices, job.indices) = (some, Some(Vec::new())),
    }
    job
}

/// A plate between the outermost centres and the side of the box, which is not off the grid; one that is off it by less than the
/// 0.0001 by which the box of a triangle is wider than the triangle; and one that is off it by less than half a cell.
fn between_centre_and_side(r: &mut Random) -> Job {
    let ways = SIDES.map(|side| ["within", "a-hair-out", "out"].map(|spot| (side, spot)));
    let (side, spot) = r.turn(ways.as_flattened());
    let (axis, _) = side;
    let mut grid = few_cells(r);
    // Near zero, where floats are closer than 0.0001.
    grid.first = [0; 3].map(|_| r.unit() * 4.0);
    grid.size = [0; 3].map(|_| r.pick(&[0.1, 0.3, 0.5, 1.0]));
    let cells = match spot {
        "within" => -f64::from(r.pick(&[0.1, 0.3, 0.45_f32])),
        "a-hair-out" => f64::from(r.pick(&[1e-5, 5e-5, 9e-5_f32])) / f64::from(grid.size[axis]),
        _ => f64::from(r.pick(&[0.1, 0.3, 0.45_f32])),
    };
    let at = out_by(&grid, side, cells);
    let (low, high) = ends(&grid, r);
    let plate = plate(low, high, axis);
    let mut job = beside(grid, r);
    for triangle in plate.triangles {
        let mut corners = triangle.map(|v| place(&job.grid, plate.vertices[v as usize]));
        corners.iter_mut().for_each(|corner| corner[axis] = at);
        put_anywhere(&mut job, corners, r);
    }
    job
}
