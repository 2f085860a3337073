//! Inputs for the steps, by kind: each function fills the words of one input of a kind. The kinds are chosen for
//! what goes wrong there: bounds, rounding, equal and nearly equal corners, ties of the region tests, signed zeros.

use crate::random::Random;
use crate::steps::{IN, UPRIGHT};

pub type Fill = fn(&mut Random, &mut [u32; IN]);

pub struct Kind {
    pub name: &'static str,
    pub fill: Fill,
}

const fn kind(name: &'static str, fill: Fill) -> Kind {
    Kind { name, fill }
}

/// Of a step, by its name.
pub fn kinds(step: &str) -> Vec<&'static Kind> {
    common(step).iter().chain(special(step)).collect()
}

/// Those that it has with others.
pub fn common(step: &str) -> &'static [Kind] {
    match step {
        "sqrt" | "sqrt_bits" => &ROOT,
        "compare" => &PAIR,
        "grid_from_box" => &BOX,
        "grid_snap" => &SNAP,
        _ if step.starts_with("grid") => &GRID,
        _ => &TRIANGLE,
    }
}

/// Those that are made for it alone.
pub fn special(step: &str) -> &'static [Kind] {
    match step {
        "ray" => &GRAZING,
        "signed_distance" => &SIDES,
        _ => &[],
    }
}

fn bits(x: f32) -> u32 {
    x.to_bits()
}

fn sign(r: &mut Random) -> u32 {
    (r.below(2) as u32) << 31
}

/// A few patterns up or down from a word.
fn near(r: &mut Random, word: u32, reach: u32) -> u32 {
    word.wrapping_add(r.between(0, 2 * reach)).wrapping_sub(reach)
}

/// Any pattern of a number of magnitude at most `bound`.
fn within(r: &mut Random, bound: f32) -> u32 {
    sign(r) | r.below(u64::from(bits(bound)) + 1) as u32
}

// The root.

static ROOT: [Kind; 5] = [
    kind("bits", |r, w| w[0] = r.next() as u32),
    kind("above-zero", |r, w| w[0] = r.below(0x7f80_0001) as u32),
    kind("subnormal", |r, w| w[0] = sign(r) | r.below(0x80_0000) as u32),
    kind("squares", |r, w| {
        // A root of 24 binary digits or of 12, squared, and its neighbours.
        let root = f32::from_bits(r.between(bits(1e-18), bits(1e18)));
        let root = if r.once_in(2) { root } else { f32::from_bits(bits(root) & 0xffff_f000) };
        w[0] = near(r, bits(root * root), 2);
    }),
    kind("halfway", |r, w| {
        // Near the square of what lies between two numbers.
        let root = f64::from(f32::from_bits(r.between(bits(1e-18), bits(1e18))));
        let gap = f64::from(f32::from_bits(bits(root as f32) + 1)) - root;
        w[0] = near(r, bits(((root + gap / 2.0) * (root + gap / 2.0)) as f32), 1);
    }),
];

// The comparison.

/// The second is `b`, with either sign on both.
fn pair(r: &mut Random, w: &mut [u32; IN], a: u32, b: u32) {
    w[0] = a ^ sign(r);
    w[1] = b ^ sign(r);
    if r.once_in(2) {
        w.swap(0, 1);
    }
}

static PAIR: [Kind; 7] = [
    kind("bits", |r, w| {
        w[0] = r.next() as u32;
        w[1] = r.next() as u32;
    }),
    kind("numbers", |r, w| {
        w[0] = within(r, f32::INFINITY);
        w[1] = within(r, f32::INFINITY);
    }),
    kind("patterns-apart", |r, w| {
        let a = r.below(0x7f80_0001) as u32;
        let b = near(r, a, 4).min(0x7f80_0000);
        pair(r, w, a, b);
    }),
    kind("1e-6-apart", |r, w| {
        let a = r.below(u64::from(bits(64.0))) as u32;
        let b = near(r, bits(f32::from_bits(a) + 1e-6), 3);
        pair(r, w, a, b);
    }),
    kind("1e-6-small", |r, w| {
        let a = r.below(u64::from(bits(3e-6))) as u32;
        let b = near(r, bits((f32::from_bits(a) - 1e-6).abs()), 2);
        pair(r, w, a, b & 0x7fff_ffff);
    }),
    kind("tiny", |r, w| {
        let a = r.below(0x80_0010) as u32;
        let b = r.below(0x80_0010) as u32;
        pair(r, w, a, b);
    }),
    kind("ends", |r, w| {
        let ends = [0, 1, 2, 3, 0x80_0000, bits(1e-6), bits(1.0), 0x7f7f_ffff, 0x7f80_0000, 0x7f80_0001, 0x7fc0_0000];
        let (a, b) = (r.pick(&ends), r.pick(&ends));
        pair(r, w, a, b);
    }),
];

// The geometry: a point, then three corners, then an axis.

const REACH: f32 = 2_097_152.0;

fn points(r: &mut Random, w: &mut [u32; IN], one: fn(&mut Random) -> u32) {
    for word in &mut w[..12] {
        *word = one(r);
    }
    axis(r, w);
}

fn axis(r: &mut Random, w: &mut [u32; IN]) {
    w[12] = if r.once_in(64) { r.next() as u32 } else { r.below(3) as u32 };
}

fn whole(r: &mut Random) -> u32 {
    bits((r.below(9) as f32) - 4.0)
}

fn fine(r: &mut Random) -> u32 {
    bits(r.unit() * 4.0)
}

/// Whole numbers, on which much is exact, or fine ones.
fn plain_points(r: &mut Random, w: &mut [u32; IN]) {
    let one = r.pick(&[whole as fn(&mut Random) -> u32, fine]);
    points(r, w, one);
}

fn real(w: &[u32; IN], k: usize) -> f32 {
    f32::from_bits(w[k])
}

/// The point becomes u·a + v·b + s·c, coordinate by coordinate.
fn mixed(w: &mut [u32; IN], u: f32, v: f32, s: f32) {
    for k in 0..3 {
        w[k] = bits(real(w, 3 + k) * u + real(w, 6 + k) * v + real(w, 9 + k) * s);
    }
}

/// Two of the corners made equal, or all three; then some zeros change their sign.
fn equal_corners(r: &mut Random, w: &mut [u32; IN]) {
    let (from, to) = r.pick(&[(3, 6), (6, 9), (3, 9), (3, 3)]);
    for k in 0..3 {
        if from == to {
            w[6 + k] = w[3 + k];
            w[9 + k] = w[3 + k];
        } else {
            w[to + k] = w[from + k];
        }
    }
    flip_zeros(r, w);
}

fn flip_zeros(r: &mut Random, w: &mut [u32; IN]) {
    for word in &mut w[..12] {
        if *word << 1 == 0 {
            *word ^= sign(r);
        }
    }
}

/// The three corners and the origin on a lattice of three by three by three, so that a weight is 0 more often than not.
fn coarse(r: &mut Random, w: &mut [u32; IN]) {
    let step = f32::from_bits(r.pick(&[bits(1.0), bits(0.1), bits(1.0 / 1024.0), bits(1_048_576.0), 0x80_0000]));
    for word in &mut w[..12] {
        *word = bits((r.below(3) as f32 - 1.0) * step);
    }
    w[12] = r.below(3) as u32;
    flip_zeros(r, w);
}

/// The two axes across the ray's.
fn across(w: &[u32; IN]) -> [usize; 2] {
    let axis = w[12] as usize;
    [(axis + 1) % 3, (axis + 2) % 3]
}

static TRIANGLE: [Kind; 17] = [
    kind("bits", |r, w| points(r, w, |r| r.next() as u32)),
    kind("within", |r, w| points(r, w, |r| within(r, REACH))),
    kind("bounds", |r, w| {
        points(r, w, |r| {
            let ends = [1_048_576.0, 2_097_152.0, 1_048_575.9, 2_097_151.9, 0.0, 1.0, 0.0001];
            let end = bits(r.pick(&ends)) | sign(r);
            // One in 40 is past the end, so that most inputs are taken.
            if r.once_in(40) {
                near(r, end, 1)
            } else {
                end
            }
        })
    }),
    kind("whole", |r, w| {
        points(r, w, whole);
        flip_zeros(r, w);
    }),
    kind("fine", |r, w| points(r, w, fine)),
    kind("scan", |r, w| {
        // A small facet some way off, and a point near it.
        let (far, size) = (r.unit() * 1000.0, f32::from_bits(r.between(bits(0.001), bits(10.0))));
        for k in 0..12 {
            w[k] = bits(far + r.unit() * size);
        }
        axis(r, w);
    }),
    kind("equal-corners", |r, w| {
        plain_points(r, w);
        equal_corners(r, w);
    }),
    kind("equal-corners-within", |r, w| {
        points(r, w, |r| within(r, REACH));
        equal_corners(r, w);
    }),
    kind("on-a-line", |r, w| {
        plain_points(r, w);
        let t = r.unit() * 2.0;
        for k in 0..3 {
            w[9 + k] = bits(real(w, 3 + k) + (real(w, 6 + k) - real(w, 3 + k)) * t);
        }
    }),
    kind("nearly-equal", |r, w| {
        // Corners a few patterns apart, and the point too, once in two.
        points(r, w, fine);
        for k in 0..3 {
            w[6 + k] = near(r, w[3 + k], 3);
            w[9 + k] = near(r, w[3 + k], 3);
            if r.once_in(2) {
                w[k] = near(r, w[3 + k], 8);
            }
        }
    }),
    kind("nearly-a-line", |r, w| {
        points(r, w, fine);
        let t = r.unit();
        for k in 0..3 {
            let x = bits(real(w, 3 + k) + (real(w, 6 + k) - real(w, 3 + k)) * t);
            w[9 + k] = near(r, x, 2);
        }
    }),
    kind("on-a-corner", |r, w| {
        plain_points(r, w);
        let at = r.pick(&[3, 6, 9]);
        w.copy_within(at..at + 3, 0);
        if r.once_in(4) {
            let k = r.below(3) as usize;
            w[k] = near(r, w[k], 2);
        }
        flip_zeros(r, w);
    }),
    kind("on-an-edge", |r, w| {
        plain_points(r, w);
        let t = r.below(17) as f32 / 8.0 - 0.5;
        let (u, v, s) = r.pick(&[(1.0 - t, t, 0.0), (1.0 - t, 0.0, t), (0.0, 1.0 - t, t)]);
        mixed(w, u, v, s);
    }),
    kind("on-the-plane", |r, w| {
        plain_points(r, w);
        let (u, v) = (r.below(25) as f32 / 8.0 - 1.0, r.below(25) as f32 / 8.0 - 1.0);
        mixed(w, u, v, 1.0 - u - v);
    }),
    kind("aimed", |r, w| {
        // A point over the triangle, moved along the axis of the ray.
        plain_points(r, w);
        let (u, v) = (r.below(9) as f32 / 16.0, r.below(9) as f32 / 16.0);
        mixed(w, u, v, 1.0 - u - v);
        let k = w[12].min(2) as usize;
        w[k] = bits(real(w, k) + r.unit() * 4.0);
    }),
    kind("zeros", |r, w| points(r, w, |r| sign(r) | if r.once_in(3) { bits(1.0) } else { 0 })),
    kind("tiny", |r, w| {
        points(r, w, |r| match r.below(3) {
            0 => sign(r) | r.below(0x80_0000) as u32,
            1 => bits(r.unit() * 2f32.powi(-(r.below(150) as i32))),
            _ => sign(r) | bits(2f32.powi(-(r.below(150) as i32))),
        });
        if r.once_in(4) {
            equal_corners(r, w);
        }
    }),
];

/// For rays that graze (document 02, §3).
static GRAZING: [Kind; 5] = [
    kind("graze-lattice", coarse),
    kind("graze-along-an-edge", |r, w| {
        // Over an edge that runs along an axis, or beyond its ends; the plane of the edge at 0 of either sign half the time.
        coarse(r, w);
        let across = across(w);
        let turn = r.below(2) as usize;
        let (fixed, free) = (across[turn], across[1 - turn]);
        let at = if r.once_in(2) { r.unit() * 4.0 } else { 0.0 };
        for k in [fixed, 3 + fixed, 6 + fixed] {
            w[k] = bits(at);
        }
        for k in [free, 3 + free, 6 + free] {
            w[k] = if r.once_in(2) { whole(r) } else { fine(r) };
        }
        flip_zeros(r, w);
    }),
    kind("graze-a-corner", |r, w| {
        // Through a corner, which may lie on the edge across from it; at times a float beside it.
        plain_points(r, w);
        w[12] = r.below(3) as u32;
        let (corner, beside) = (3 * (1 + r.below(3) as usize), r.once_in(4));
        for k in across(w) {
            w[k] = if beside { near(r, w[corner + k], 1) } else { w[corner + k] };
        }
        flip_zeros(r, w);
    }),
    kind("graze-edge-on", |r, w| {
        // A facet that has no area across the ray: along one axis it has one place, or it is a needle or a point.
        plain_points(r, w);
        w[12] = r.below(3) as u32;
        let axes = across(w);
        for &k in &axes[..r.between(1, 2) as usize] {
            (w[6 + k], w[9 + k]) = (w[3 + k], w[3 + k]);
            if r.once_in(2) {
                w[k] = w[3 + k];
            }
        }
        if r.once_in(4) {
            equal_corners(r, w);
        }
        flip_zeros(r, w);
    }),
    kind("graze-underflow", |r, w| {
        // So small that a product is lost: a weight is 0 though the ray is off the edge.
        plain_points(r, w);
        w[12] = r.below(3) as u32;
        let tiny = 2f32.powi(-(r.between(50, 130) as i32));
        for word in &mut w[..12] {
            if !r.once_in(6) {
                *word = bits(f32::from_bits(*word) * tiny);
            }
        }
    }),
];

/// All corners get one place along an axis, and so the normal points along it; which axis.
fn flat(r: &mut Random, w: &mut [u32; IN]) -> usize {
    let k = r.below(3) as usize;
    (w[6 + k], w[9 + k]) = (w[3 + k], w[3 + k]);
    k
}

/// For the side of a triangle (document 02, §8): a dot of exactly 0, of either sign and of a NaN, or next to 0.
static SIDES: [Kind; 6] = [
    kind("side-in-the-plane", |r, w| {
        // In the plane of a flat facet, over it or beside it, where the dot is exactly 0; once in two some patterns off it.
        plain_points(r, w);
        let k = flat(r, w);
        w[k] = if r.once_in(2) { w[3 + k] } else { near(r, w[3 + k], 2) };
        flip_zeros(r, w);
    }),
    kind("side-lattice", coarse),
    kind("side-over", |r, w| {
        // Over the triangle or beside it, above and below its plane, by much and by hardly anything.
        plain_points(r, w);
        let [a, b, c] = [3, 6, 9].map(|at| [real(w, at), real(w, at + 1), real(w, at + 2)]);
        let edge = |to: [f32; 3]| [0, 1, 2].map(|k| to[k] - a[k]);
        let (u, v) = (r.unit() * 1.5, r.unit() * 1.5);
        mixed(w, 1.0 - u - v, u, v);
        let ([abx, aby, abz], [acx, acy, acz]) = (edge(b), edge(c));
        let normal = [aby * acz - abz * acy, abz * acx - abx * acz, abx * acy - aby * acx];
        let height = f32::from_bits(within(r, 1.0));
        for k in 0..3 {
            w[k] = bits(real(w, k) + normal[k] * height);
        }
    }),
    kind("side-of-a-needle", |r, w| {
        // A facet that is a segment, or a few patterns from one: its normal is zero, or what rounding leaves of it.
        points(r, w, fine);
        let t = r.below(9) as f32 / 8.0;
        for k in 0..3 {
            let x = bits(real(w, 3 + k) + (real(w, 6 + k) - real(w, 3 + k)) * t);
            w[9 + k] = if r.once_in(2) { x } else { near(r, x, 1) };
        }
    }),
    kind("side-underflow", |r, w| {
        // So small that products of the normal and of the dot are lost, though the point is off the plane.
        plain_points(r, w);
        let tiny = 2f32.powi(-(r.between(20, 130) as i32));
        for word in &mut w[..12] {
            *word = bits(f32::from_bits(*word) * tiny);
        }
        if r.once_in(2) {
            flat(r, w);
        }
    }),
    kind("side-beyond", |r, w| {
        // So small that the closest point comes out as infinite, and with it the distance. The dot is a NaN where infinities of both
        // signs meet in it.
        points(r, w, fine);
        for k in 0..3 {
            // Both edges go the same way, or the closest point is a NaN.
            let (a, b, c) = (real(w, 3 + k), real(w, 6 + k), real(w, 9 + k));
            w[9 + k] = bits(a + (c - a).abs().copysign(b - a));
        }
        let (u, v) = (r.unit().abs() * 0.5, r.unit().abs() * 0.5);
        mixed(w, 1.0 - u - v, u, v);
        let tiny = 2f32.powi(-(r.between(33, 36) as i32));
        for word in &mut w[..12] {
            *word = bits(f32::from_bits(*word) * tiny);
        }
    }),
];

// The grids: first, size, counts and the upright axis, and a cell, an index or a point behind them. The axis is no part of a kind (`upright`).

/// Where the cell, the index or the point stands.
const ASKED: usize = UPRIGHT + 1;

/// An upright axis: mostly one of the three, once in eight none. It has random numbers of its own, so that the kinds stay as they were.
pub fn upright(r: &mut Random) -> u32 {
    if r.once_in(8) {
        let any = r.next() as u32;
        return r.pick(&[3, u32::MAX, 3, u32::MAX, 4, 255, 256, 1 << 31, any]);
    }
    r.below(3) as u32
}

/// Any words, but for the axis.
fn any_words(r: &mut Random, w: &mut [u32; IN]) {
    for word in (0..UPRIGHT).chain(ASKED..IN) {
        w[word] = r.next() as u32;
    }
}

/// Counts whose product is within the bound, and once in 16 any.
fn counts(r: &mut Random, w: &mut [u32]) {
    if r.once_in(16) {
        for n in &mut w[..3] {
            *n = r.pick(&[0, 1, 2, 1023, 1024, 1025, 1_048_576, 65_536, u32::MAX]);
        }
        return;
    }
    let most = r.pick(&[(1024, 1024, 1), (1024, 1, 1024), (1, 1024, 1024), (101, 101, 101), (5, 4, 3)]);
    let of = |n, r: &mut Random| if r.once_in(4) { n } else { r.between(1, n) };
    (w[0], w[1], w[2]) = (of(most.0, r), of(most.1, r), of(most.2, r));
}

fn cells(r: &mut Random, w: &mut [u32; IN]) {
    counts(r, &mut w[6..9]);
    for k in 0..3 {
        // Mostly below the count, at times the count itself or any number.
        let n = u64::from(w[6 + k]).max(1);
        w[ASKED + k] = match r.below(40) {
            0 => w[6 + k],
            1 => r.next() as u32,
            2..=8 => (n - 1) as u32,
            _ => r.below(n) as u32,
        };
    }
    // A step that takes an index reads it from the first of the three.
    if r.once_in(2) {
        let total = u64::from(w[6]).wrapping_mul(u64::from(w[7])).wrapping_mul(u64::from(w[8])).clamp(1, 1 << 32);
        w[ASKED] = if r.once_in(20) { total as u32 } else { r.below(total) as u32 };
    }
}

fn any_grid(r: &mut Random, w: &mut [u32; IN]) {
    for k in 0..3 {
        w[k] = within(r, 1_048_576.0);
        w[3 + k] = r.between(bits(1.0 / 1024.0), bits(1024.0));
    }
    cells(r, w);
}

fn grid_at_bounds(r: &mut Random, w: &mut [u32; IN]) {
    for k in 0..3 {
        let end = r.pick(&[bits(1_048_576.0), bits(-1_048_576.0), 0, 1 << 31]);
        w[k] = if r.once_in(24) { near(r, end, 1) } else { end };
        let end = r.pick(&[bits(1.0 / 1024.0), bits(1024.0), bits(1.0)]);
        w[3 + k] = if r.once_in(24) { near(r, end, 1) } else { end };
    }
    cells(r, w);
}

fn whole_grid(r: &mut Random, w: &mut [u32; IN]) {
    for k in 0..3 {
        w[k] = bits((r.below(17) as f32) * 0.5 - 4.0);
        w[3 + k] = bits(2f32.powi(r.below(21) as i32 - 10));
    }
    cells(r, w);
}

fn tank_grid(r: &mut Random, w: &mut [u32; IN]) {
    let size = bits(f32::from_bits(r.between(bits(0.01), bits(10.0))));
    for k in 0..3 {
        w[k] = bits(r.unit() * 100.0);
        w[3 + k] = size;
    }
    cells(r, w);
}

static GRID: [Kind; 5] = [
    kind("bits", |r, w| {
        any_words(r, w);
        if r.once_in(2) {
            cells(r, w);
        }
    }),
    kind("any", any_grid),
    kind("bounds", grid_at_bounds),
    kind("whole", whole_grid),
    kind("tank", tank_grid),
];

/// The point is moved to a side between two cells of the grid, or a few patterns beside it.
fn to_sides(r: &mut Random, w: &mut [u32; IN]) {
    for k in 0..3 {
        let (first, size) = (real(w, k), real(w, 3 + k));
        let cell = r.below(u64::from(w[6 + k].min(1024)) + 3) as f32 - 1.0;
        let side = if r.once_in(2) { first - size * 0.5 + cell * size } else { first + (cell - 0.5) * size };
        w[ASKED + k] = if r.once_in(2) { bits(side) } else { near(r, bits(side), 2) };
    }
}

fn to_box(r: &mut Random, w: &mut [u32; IN]) {
    for k in 0..3 {
        let (first, size, count) = (real(w, k), real(w, 3 + k), w[6 + k].min(1024) as f32);
        w[ASKED + k] = bits(first + size * count * (r.unit() * 0.75 + 0.5));
    }
}

static SNAP: [Kind; 8] = [
    kind("bits", |r, w| {
        any_grid(r, w);
        for word in &mut w[ASKED..] {
            *word = r.next() as u32;
        }
    }),
    kind("random-grid", any_words),
    kind("sides-whole", |r, w| {
        whole_grid(r, w);
        to_sides(r, w);
    }),
    kind("sides-any", |r, w| {
        any_grid(r, w);
        to_sides(r, w);
    }),
    kind("sides-tank", |r, w| {
        tank_grid(r, w);
        to_sides(r, w);
    }),
    kind("sides-bounds", |r, w| {
        grid_at_bounds(r, w);
        to_sides(r, w);
    }),
    kind("box", |r, w| {
        tank_grid(r, w);
        to_box(r, w);
    }),
    kind("ends", |r, w| {
        // Points at which the quotient is a NaN, an infinity or past 64 bits.
        grid_at_bounds(r, w);
        for word in &mut w[ASKED..] {
            let ends = [0, 1, 0x7f7f_ffff, 0x7f80_0000, 0x7fc0_0000, bits(2_097_152.0), bits(1e19), bits(9.3e15)];
            *word = sign(r) | r.pick(&ends);
        }
    }),
];

// A box and counts.

fn corners(r: &mut Random, w: &mut [u32; IN], low: fn(&mut Random) -> f32, extent: fn(&mut Random) -> f32) {
    counts(r, &mut w[6..9]);
    for k in 0..3 {
        let (x, y) = (low(r), extent(r));
        w[k] = bits(x);
        w[3 + k] = bits(x + y);
    }
}

static BOX: [Kind; 4] = [
    kind("bits", |r, w| {
        for word in &mut w[..6] {
            *word = r.next() as u32;
        }
        counts(r, &mut w[6..9]);
    }),
    kind("tank", |r, w| corners(r, w, |r| r.unit() * 50.0, |r| 1.0 + r.unit() * 1.01)),
    kind("whole", |r, w| corners(r, w, |r| r.below(9) as f32 - 4.0, |r| r.below(33) as f32)),
    kind("bounds", |r, w| {
        // Sizes at both ends of what is taken, and first coordinates.
        counts(r, &mut w[6..9]);
        for k in 0..3 {
            let size = r.pick(&[1.0 / 1024.0, 1024.0, 1.0]);
            let low = r.pick(&[1_048_576.0, -1_048_576.0, 0.0, -0.0, 1_048_064.0, -1_049_088.0]);
            w[k] = bits(low);
            w[3 + k] = near(r, bits(low + size * w[6 + k].min(1024) as f32), 1);
        }
    }),
];
