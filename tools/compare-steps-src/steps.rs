//! The steps: each on 32-bit words, floats by their bits. What is owed for an input is the unmodified Rust's answer
//! where the question is within bounds, and else the refusal that a plain test of document 01's bounds gives. Whether a ray
//! grazes, for which the Rust has no reply, is the model's answer.

use mesh_to_sdf::{probe, Grid, SnapResult};
use model::geometry::{closest_point, cross, dot, sub, Reply};

pub type P = [f32; 3];

/// The most words that go in, and that come out.
pub const IN: usize = 13;
pub const OUT: usize = 11;

/// Where a grid has its upright axis, behind first, size and counts (document 02, §9); what else a question takes comes after it.
pub const UPRIGHT: usize = 9;

pub type Ask = fn(&[u32], &mut [u32]);

pub struct Step {
    pub name: &'static str,
    /// How many words go in and come out.
    pub takes: usize,
    pub gives: usize,
    pub owed: Ask,
}

const fn step(name: &'static str, takes: usize, gives: usize, owed: Ask) -> Step {
    Step { name, takes, gives, owed }
}

/// In the order of the numbers that the stored sample has for them.
pub const STEPS: [Step; 20] = [
    step("sqrt", 1, 1, sqrt),
    step("sqrt_bits", 1, 1, sqrt),
    step("compare", 2, 2, compare),
    step("triangle_box", 9, 7, triangle_box),
    step("segment", 9, 4, segment),
    step("triangle", 12, 4, triangle),
    step("distance", 12, 2, distance),
    step("ray", 13, 4, ray),
    step("grid_first", 10, 4, |i, o| of_grid(i, o, |g, o| put(o, &g.get_first_cell()))),
    step("grid_last", 10, 4, |i, o| of_grid(i, o, |g, o| put(o, &g.get_last_cell()))),
    step("grid_size", 10, 4, |i, o| of_grid(i, o, |g, o| put(o, &g.get_cell_size()))),
    step("grid_counts", 10, 4, |i, o| of_grid(i, o, |g, o| put_cell(o, g.get_cell_count()))),
    step("grid_total", 10, 2, |i, o| of_grid(i, o, |g, o| o[0] = g.get_total_cell_count() as u32)),
    step("grid_box", 10, 7, |i, o| {
        of_grid(i, o, |g, o| {
            let (low, high) = g.get_bounding_box();
            put(o, &low);
            put(&mut o[3..], &high);
        })
    }),
    step("grid_index", 13, 2, |i, o| of_cell(i, o, |g, at, o| o[0] = g.get_cell_idx(&at) as u32)),
    step("grid_coordinates", 11, 4, grid_coordinates),
    step("grid_centre", 13, 4, |i, o| of_cell(i, o, |g, at, o| put(o, &g.get_cell_center(&at)))),
    step("grid_snap", 13, 5, grid_snap),
    step("grid_from_box", 9, 11, grid_from_box),
    step("signed_distance", 12, 2, signed_distance),
];

impl Step {
    /// Whether it takes a grid.
    pub fn takes_grid(&self) -> bool {
        self.name.starts_with("grid") && self.name != "grid_from_box"
    }
}

/// Which step has a name.
pub fn number(name: &str) -> usize {
    STEPS.iter().position(|s| s.name == name).expect("a step's name")
}

fn real(word: u32) -> f32 {
    f32::from_bits(word)
}

pub fn point(words: &[u32]) -> P {
    [real(words[0]), real(words[1]), real(words[2])]
}

fn put(out: &mut [u32], p: &P) {
    for (word, x) in out.iter_mut().zip(p) {
        *word = x.to_bits();
    }
}

fn put_cell(out: &mut [u32], cell: [usize; 3]) {
    for (word, n) in out.iter_mut().zip(cell) {
        *word = n as u32;
    }
}

// The bounds, as document 01 has them.

fn finite_at_most(x: f32, bound: f32) -> bool {
    x.is_finite() && x.abs() <= bound
}

/// Refused by 2, for the first `n` coordinates.
fn out_of_reach(words: &[u32], n: usize) -> bool {
    !words[..n].iter().all(|&w| finite_at_most(real(w), 2_097_152.0))
}

fn grid_in_bounds(words: &[u32]) -> bool {
    let counts = &words[6..9];
    words[..3].iter().all(|&w| finite_at_most(real(w), 1_048_576.0))
        && words[3..6].iter().all(|&w| real(w) >= 1.0 / 1024.0 && real(w) <= 1024.0)
        && counts.iter().all(|&n| (1..=1024).contains(&n))
        && counts.iter().map(|&n| u64::from(n)).product::<u64>() <= 1_048_576
        && words[UPRIGHT] <= 2
}

fn counts(words: &[u32]) -> [usize; 3] {
    [words[0] as usize, words[1] as usize, words[2] as usize]
}

/// The Rust's grid, which has no upright axis: no answer depends on it.
fn grid(words: &[u32]) -> Grid<P> {
    Grid::new(point(words), point(&words[3..]), counts(&words[6..]))
}

/// 0 with the value; a NaN in it is refused by 6.
fn give_reals(out: &mut [u32], values: &[f32]) {
    if values.iter().any(|x| x.is_nan()) {
        out[0] = 6;
        return;
    }
    for (word, x) in out[1..].iter_mut().zip(values) {
        *word = x.to_bits();
    }
}

fn sqrt(i: &[u32], o: &mut [u32]) {
    let root = real(i[0]).sqrt();
    o[0] = if root.is_nan() { 0x7fc0_0000 } else { root.to_bits() };
}

fn compare(i: &[u32], o: &mut [u32]) {
    let (a, b) = (real(i[0]), real(i[1]));
    if a.is_nan() || b.is_nan() {
        o[0] = 6;
    } else {
        o[1] = probe::compare_distances(a, b) as i32 as u32;
    }
}

fn triangle_box(i: &[u32], o: &mut [u32]) {
    if out_of_reach(i, 9) {
        o[0] = 2;
        return;
    }
    let (low, high) = probe::triangle_bounding_box(&point(i), &point(&i[3..]), &point(&i[6..]));
    put(&mut o[1..], &low);
    put(&mut o[4..], &high);
}

fn segment(i: &[u32], o: &mut [u32]) {
    if out_of_reach(i, 9) {
        o[0] = 2;
        return;
    }
    give_reals(o, &probe::closest_point_segment(&point(i), &point(&i[3..]), &point(&i[6..])));
}

fn triangle(i: &[u32], o: &mut [u32]) {
    if out_of_reach(i, 12) {
        o[0] = 2;
        return;
    }
    give_reals(o, &probe::closest_point_triangle(&point(i), &point(&i[3..]), &point(&i[6..]), &point(&i[9..])));
}

fn distance(i: &[u32], o: &mut [u32]) {
    if out_of_reach(i, 12) {
        o[0] = 2;
        return;
    }
    give_reals(o, &[bare_distance(i)]);
}

fn signed_distance(i: &[u32], o: &mut [u32]) {
    if out_of_reach(i, 12) {
        o[0] = 2;
        return;
    }
    give_reals(o, &[bare_signed_distance(i)]);
}

fn ray(i: &[u32], o: &mut [u32]) {
    rust_ray(i, o);
    if o[0] == 0 {
        let model = plain_ray(i);
        let hit = (o[1] == 1).then_some(o[3]);
        assert_eq!(hit, model.hit().map(f32::to_bits), "the Rust's ray and the model's: {i:x?}");
        o[2] = u32::from(model == Reply::Grazed);
    }
}

/// Number, hit, grazed, t, as far as the Rust can tell: never grazed.
pub fn rust_ray(i: &[u32], o: &mut [u32]) {
    if out_of_reach(i, 12) {
        o[0] = 2;
        return;
    }
    if let Some(t) = bare_ray(i) {
        o[1] = 1;
        o[3] = t.to_bits();
    }
}

/// The model's ray: any axis above y is z.
pub fn plain_ray(i: &[u32]) -> Reply {
    let corners = [point(&i[3..]), point(&i[6..]), point(&i[9..])];
    model::geometry::ray(point(i), corners, i[12].min(2) as usize)
}

/// The Rust alone, with no test of bounds.
#[inline(never)]
pub fn bare_distance(i: &[u32]) -> f32 {
    probe::point_triangle_distance(&point(i), &point(&i[3..]), &point(&i[6..]), &point(&i[9..]))
}

#[inline(never)]
pub fn bare_signed_distance(i: &[u32]) -> f32 {
    probe::point_triangle_signed_distance(&point(i), &point(&i[3..]), &point(&i[6..]), &point(&i[9..]))
}

/// The dot that tells the side of a signed distance, for counting and choosing inputs by it.
pub fn side(i: &[u32]) -> f32 {
    let (p, a, b, c) = (point(i), point(&i[3..]), point(&i[6..]), point(&i[9..]));
    dot(sub(p, closest_point(p, [a, b, c])), cross(sub(b, a), sub(c, a)))
}

#[inline(never)]
pub fn bare_ray(i: &[u32]) -> Option<f32> {
    probe::ray_triangle_intersection_aligned(
        &point(i),
        [&point(&i[3..]), &point(&i[6..]), &point(&i[9..])],
        i[12].min(2),
    )
}

fn of_grid(i: &[u32], o: &mut [u32], ask: fn(Grid<P>, &mut [u32])) {
    if grid_in_bounds(i) {
        ask(grid(i), &mut o[1..]);
    } else {
        o[0] = 1;
    }
}

fn of_cell(i: &[u32], o: &mut [u32], ask: fn(Grid<P>, [usize; 3], &mut [u32])) {
    if !grid_in_bounds(i) {
        o[0] = 1;
    } else if (0..3).any(|k| i[10 + k] >= i[6 + k]) {
        o[0] = 4;
    } else {
        ask(grid(i), counts(&i[10..]), &mut o[1..]);
    }
}

fn grid_coordinates(i: &[u32], o: &mut [u32]) {
    if !grid_in_bounds(i) {
        o[0] = 1;
    } else if i[10] >= i[6] * i[7] * i[8] {
        o[0] = 4;
    } else {
        put_cell(&mut o[1..], grid(i).get_cell_integer_coordinates(i[10] as usize));
    }
}

fn grid_snap(i: &[u32], o: &mut [u32]) {
    if !grid_in_bounds(i) {
        o[0] = 1;
        return;
    }
    let (inside, cell) = match grid(i).snap_point_to_grid(&point(&i[10..])) {
        SnapResult::Inside(cell) => (1, cell),
        SnapResult::Outside(cell) => (0, cell),
    };
    o[1] = inside;
    put_cell(&mut o[2..], cell);
}

fn grid_from_box(i: &[u32], o: &mut [u32]) {
    let made = Grid::from_bounding_box(&point(i), &point(&i[3..]), counts(&i[6..]));
    let mut words = [0; 10];
    put(&mut words, &made.get_first_cell());
    put(&mut words[3..], &made.get_cell_size());
    words[6..9].copy_from_slice(&i[6..9]);
    // It is made with z upright.
    words[UPRIGHT] = 2;
    if grid_in_bounds(&words) {
        o[1..11].copy_from_slice(&words);
    } else {
        o[0] = 1;
    }
}
