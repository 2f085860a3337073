//! steps-check N SEED: the model's grid and geometry held to the source's, one step at a time: N random cases of each
//! step, bit for bit (any NaN equals any NaN). Prints what was met; ends with 1 at the first difference.

#[allow(dead_code)]
mod random;

use mesh_to_sdf::{probe, Grid, SnapResult};
use model::geometry::{self, Reply};
use model::grid;
use random::Random;

type P = [f32; 3];

/// One coordinate: whole numbers, halves, fine ones, the bounds' ends, tiny and zero ones.
fn coordinate(style: u64, r: &mut Random) -> f32 {
    match style {
        0 => (r.below(9) as f32) - 4.0,
        1 => r.unit() * 4.0,
        2 => (r.below(17) as f32) * 0.5 - 4.0,
        3 => r.unit() * 1_048_576.0,
        4 => r.pick(&[0.0, -0.0, 1_048_576.0, -1_048_576.0, 2_097_152.0, -2_097_152.0]),
        5 => r.unit() * 2f32.powi(-(r.below(150) as i32)),
        6 => f32::from_bits(r.next() as u32 & 0x807f_ffff),
        _ => coordinate(r.below(7), r),
    }
}

/// Any bit pattern but a NaN's.
fn any(r: &mut Random) -> f32 {
    loop {
        let x = f32::from_bits(r.next() as u32);
        if !x.is_nan() {
            return x;
        }
    }
}

fn point(style: u64, r: &mut Random) -> P {
    [0; 3].map(|_| coordinate(style, r))
}

/// Corners; one in four cases repeats one, one in eight lies on a line.
fn triangle(style: u64, r: &mut Random) -> [P; 3] {
    let [a, b, mut c] = [0; 3].map(|_| point(style, r));
    match r.below(8) {
        0 => [a, a, c],
        1 => {
            c = [0, 1, 2].map(|i| (a[i] + b[i]) * 0.5);
            [a, b, c]
        }
        2 => [a, b, r.pick(&[b, a])],
        _ => [a, b, c],
    }
}

fn same(a: f32, b: f32) -> bool {
    a.to_bits() == b.to_bits() || a.is_nan() && b.is_nan()
}

fn same_point(a: P, b: P) -> bool {
    a.iter().zip(&b).all(|(&a, &b)| same(a, b))
}

/// What the cases led to, so that one sees that they reach into every corner.
#[derive(Default, Debug)]
struct Met {
    ray_hits: u64,
    rays_grazed: u64,
    nan_distances: u64,
    infinite_distances: u64,
    signed_positive: u64,
    signed_minus_zero: u64,
    corners_closest: u64,
    snaps_inside: u64,
}

fn hold(step: &str, equal: bool, case: impl std::fmt::Debug) {
    if !equal {
        println!("{step}: a difference at {case:?}");
        std::process::exit(1);
    }
}

fn geometry_case(r: &mut Random, met: &mut Met) {
    let style = r.below(8);
    let p = point(style, r);
    let [a, b, c] = triangle(style, r);
    let case = (p, a, b, c);
    hold(
        "closest_point_triangle",
        same_point(probe::closest_point_triangle(&p, &a, &b, &c), geometry::closest_point(p, [a, b, c])),
        case,
    );
    hold(
        "closest_point_segment",
        same_point(probe::closest_point_segment(&p, &a, &b), geometry::closest_on_segment(p, a, b)),
        case,
    );
    hold(
        "point_triangle_distance",
        same(probe::point_triangle_distance(&p, &a, &b, &c), geometry::distance(p, [a, b, c])),
        case,
    );
    let signed = geometry::point_triangle_signed_distance(p, [a, b, c]);
    hold("point_triangle_signed_distance", same(probe::point_triangle_signed_distance(&p, &a, &b, &c), signed), case);
    met.signed_positive += u64::from(signed.is_sign_positive() && !signed.is_nan());
    met.signed_minus_zero += u64::from(signed.to_bits() == (-0.0_f32).to_bits());
    let distance = geometry::distance(p, [a, b, c]);
    met.nan_distances += u64::from(distance.is_nan());
    met.infinite_distances += u64::from(distance.is_infinite());
    met.corners_closest += u64::from([a, b, c].contains(&geometry::closest_point(p, [a, b, c])));
    let (low, high) = probe::triangle_bounding_box(&a, &b, &c);
    let (model_low, model_high) = geometry::triangle_box([a, b, c]);
    hold("triangle_bounding_box", same_point(low, model_low) && same_point(high, model_high), case);
    for axis in 0..3 {
        let theirs = probe::ray_triangle_intersection_aligned(&p, [&a, &b, &c], axis as u32);
        let ours = geometry::ray(p, [a, b, c], axis);
        met.ray_hits += u64::from(ours.hit().is_some());
        met.rays_grazed += u64::from(ours == Reply::Grazed);
        // The source has no reply for a ray that grazes: its None is a miss or grazed.
        hold("ray_triangle_intersection_aligned", theirs.map(f32::to_bits) == ours.hit().map(f32::to_bits), case);
    }
}

fn grid_case(r: &mut Random, met: &mut Met) {
    let style = r.below(8);
    let count = [0; 3].map(|_| {
        let most = r.pick(&[1, 4, 12, 1024]);
        1 + r.below(most) as u32
    });
    let size = [0; 3].map(|_| match r.below(5) {
        0 => 1.0,
        1 => 1.0 / 1024.0,
        2 => 1024.0,
        3 => 0.1,
        _ => 2f32.powi(r.below(19) as i32 - 9) * (1.0 + r.unit().abs() * 0.9),
    });
    let first = point(style, r);
    let ours = grid::Grid { first, size, count, upright: None };
    let theirs = Grid::new(first, size, count.map(|n| n as usize));
    let case = (first, size, count);
    // A cell of the grid, and a point at or near an edge of one.
    let cell = count.map(|n| r.below(u64::from(n)) as u32);
    let centre = ours.centre(cell);
    hold("get_cell_center", same_point(theirs.get_cell_center(&cell.map(|n| n as usize)), centre), (case, cell));
    let (low, high) = theirs.get_bounding_box();
    hold("get_bounding_box", same_point(low, ours.box_minimum()) && same_point(high, ours.box_maximum()), case);
    hold("get_last_cell", same_point(theirs.get_last_cell(), ours.last_cell()), case);
    let step = r.pick(&[0.0, 0.5, -0.5, 1.0, -1.0, 2000.0]);
    let near = [0, 1, 2].map(|axis| centre[axis] + step * size[axis]);
    let far = point(3, r);
    let any = [0; 3].map(|_| any(r));
    for at in [near, far, any] {
        let snapped = match theirs.snap_point_to_grid(&at) {
            SnapResult::Inside(cell) => (cell.map(|n| n as u32), true),
            SnapResult::Outside(cell) => (cell.map(|n| n as u32), false),
        };
        met.snaps_inside += u64::from(snapped.1);
        hold("snap_point_to_grid", snapped == ours.snap(at), (case, at));
    }
    if u128::from(count[0]) * u128::from(count[1]) * u128::from(count[2]) <= 1 << 31 {
        let index = theirs.get_cell_idx(&cell.map(|n| n as usize));
        hold("get_cell_idx", index == ours.index(cell) as usize, (case, cell));
        let back = theirs.get_cell_integer_coordinates(index).map(|n| n as u32);
        hold("get_cell_integer_coordinates", back == cell && ours.coordinates(index as u32) == cell, (case, cell));
    }
    let (made, model_made) = (
        Grid::from_bounding_box(&near, &far, count.map(|n| n as usize)),
        grid::Grid::from_bounding_box(near, far, count),
    );
    hold(
        "from_bounding_box",
        same_point(made.get_first_cell(), model_made.first) && same_point(made.get_cell_size(), model_made.size),
        (near, far, count),
    );
}

fn main() {
    let args: Vec<u64> = std::env::args().skip(1).map(|a| a.parse().expect("a number")).collect();
    let (cases, seed) = (args.first().copied().unwrap_or(2_000_000), args.get(1).copied().unwrap_or(1));
    let mut r = Random::new(seed, 0);
    let mut met = Met::default();
    for _ in 0..cases {
        geometry_case(&mut r, &mut met);
        grid_case(&mut r, &mut met);
    }
    println!("{met:?}");
    println!("{cases} cases of each step of geometry and of the grid, 0 differences");
}
