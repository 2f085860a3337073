//! steps-sample SEED: prints the stored sample of steps: a line of 32-bit words for each case, in lower-case hex: the
//! number of the step, what goes in, and what the unmodified Rust answers (or the refusal that document 01 owes); whether a ray
//! grazes is the model's answer.

#[allow(dead_code)]
mod inputs;
#[path = "../generator/random.rs"]
#[allow(dead_code)]
mod random;
#[allow(dead_code)]
mod steps;

use inputs::{common, kinds, special};
use model::geometry::Reply;
use random::Random;
use steps::{number, plain_ray, point, side, IN, OUT, STEPS, UPRIGHT};

/// How many cases of each step are drawn, in the order of the steps. Those of a signed distance are chosen one by one (`sides`).
const CASES: [usize; STEPS.len()] = [20, 20, 42, 17, 34, 51, 51, 51, 5, 10, 5, 5, 5, 10, 15, 15, 15, 48, 16, 0];
/// How many of a step are printed at most, since the program that replays them reads 65,536 bytes: the last of the most numerous are left out.
const MOST: usize = 44;

/// Document 01's points, "Points on each side".
fn marked() -> Vec<(&'static str, Vec<f32>, Vec<u32>)> {
    let triangle = [0., 0., 0., 4., 0., 0., 0., 4., 0.];
    let to_triangle = |p: [f32; 3]| [&p[..], &triangle[..]].concat();
    // Four cells along x, with z upright.
    let four_cells = |x: f32| (vec![0.5, 0.5, 0.5, 1., 1., 1.], vec![4, 1, 1, 2], vec![x, 0.5, 0.5]);
    let mut cases = vec![
        ("sqrt", vec![2.0], vec![]),
        ("sqrt_bits", vec![f32::from_bits(1)], vec![]),
        ("sqrt_bits", vec![0.0], vec![]),
        ("compare", vec![1.0, -1.0], vec![]),
        ("compare", vec![-1.0, 1.0], vec![]),
        ("distance", to_triangle([1., 1., 1.]), vec![]),
        ("ray", to_triangle([1., 1., -1.]), vec![2]),
        ("ray", to_triangle([0., 1., -1.]), vec![2]),
        ("ray", to_triangle([1., 1., 0.]), vec![2]),
        ("distance", vec![0., 0., 0., 0., 0., 0., 0., 0., 0., 2f32.powi(-100), 0., 0.], vec![]),
    ];
    for x in [0.0, 4.0, -0.25] {
        let (grid, counts, point) = four_cells(x);
        // The counts and the axis stand between the grid's floats and the point's.
        let bits: Vec<u32> = point.iter().map(|x: &f32| x.to_bits()).collect();
        cases.push(("grid_snap", grid, [counts, bits].concat()));
    }
    cases
}

fn answer(s: usize, words: &[u32; IN]) -> [u32; OUT] {
    let mut out = [0; OUT];
    (STEPS[s].owed)(words, &mut out);
    out
}

fn print(s: usize, words: &[u32; IN]) {
    let step = &STEPS[s];
    let out = answer(s, words);
    let line = [&[s as u32], &words[..step.takes], &out[..step.gives]].concat();
    println!("{}", line.iter().map(|w| format!("{w:08x}")).collect::<Vec<_>>().join(" "));
}

/// Whether a case shows most: an answer, and of a ray or a snap a hit or a point inside.
fn telling(s: usize, words: &[u32; IN]) -> bool {
    let out = answer(s, words);
    match STEPS[s].name {
        "sqrt" | "sqrt_bits" => true,
        "ray" | "grid_snap" => out[..2] == [0, 1],
        _ => out[0] == 0,
    }
}

fn main() {
    let seed = std::env::args().nth(1).and_then(|a| a.parse().ok()).expect("steps-sample SEED");
    let mut r = Random::new(seed, 0);
    for (name, reals, rest) in marked() {
        print(number(name), &given(&reals, &rest));
    }
    for (s, n) in CASES.into_iter().enumerate() {
        // Those made for one step come last, with random numbers of their own: the cases before them stay as they were.
        let of = common(STEPS[s].name);
        for case in 0..n {
            // Two of three are to be telling, where their kind has such cases; the others are as they come.
            let mut words = [0; IN];
            if STEPS[s].takes_grid() {
                // Not in step with what is telling.
                words[UPRIGHT] = (case + case / 3) as u32 % 3;
            }
            for _ in 0..1000 {
                (of[case % of.len()].fill)(&mut r, &mut words);
                if case % 3 == 2 || telling(s, &words) {
                    break;
                }
            }
            if case < MOST {
                print(s, &words);
            }
        }
    }
    grazing(&mut Random::new(seed + 3, 0));
    sides(&mut Random::new(seed + 8, 0));
    no_axis(&mut Random::new(seed + 9, 0));
}

/// Every question of a grid that says an axis which is none (document 02, §9), though it would have an answer with x, y or z: 3, and the largest
/// number.
fn no_axis(r: &mut Random) {
    for upright in [3, u32::MAX] {
        for (s, step) in STEPS.iter().enumerate().filter(|(_, step)| step.takes_grid()) {
            let of = common(step.name);
            let kind = of.iter().find(|k| ["tank", "box"].contains(&k.name)).expect("a kind's name");
            let mut words = [0; IN];
            (kind.fill)(r, &mut words);
            while !telling(s, &words) {
                (kind.fill)(r, &mut words);
            }
            words[UPRIGHT] = upright;
            print(s, &words);
        }
    }
}

/// The words of an input: floats, and what follows them.
fn given(reals: &[f32], rest: &[u32]) -> [u32; IN] {
    let mut words = [0; IN];
    for (word, x) in words.iter_mut().zip(reals) {
        *word = x.to_bits();
    }
    words[reals.len()..reals.len() + rest.len()].copy_from_slice(rest);
    words
}

/// Twice of each kind that is made for rays that graze, along the axes in turn: a ray that grazes; one whose zero weights are all
/// -0; and a miss with a weight of 0. Every kind has all three.
fn grazing(r: &mut Random) {
    for round in 0..2 {
        for (k, kind) in special("ray").iter().enumerate() {
            for (n, wanted) in [Wanted::Grazed, Wanted::GrazedMinusZero, Wanted::Missed].into_iter().enumerate() {
                let axis = (round + k + n) as u32 % 3;
                let mut words = [0; IN];
                while words[12] != axis || !wanted.is(&words) {
                    (kind.fill)(r, &mut words);
                }
                print(number("ray"), &words);
            }
        }
    }
}

#[derive(Clone, Copy, PartialEq)]
enum Wanted {
    Grazed,
    GrazedMinusZero,
    Missed,
}

impl Wanted {
    fn is(self, words: &[u32; IN]) -> bool {
        let zeros: Vec<f32> = weights(words).into_iter().filter(|w| *w == 0.0).collect();
        let reply = plain_ray(words);
        match self {
            Wanted::Grazed => reply == Reply::Grazed,
            Wanted::GrazedMinusZero => reply == Reply::Grazed && zeros.iter().all(|w| w.is_sign_negative()),
            Wanted::Missed => reply == Reply::Miss && !zeros.is_empty(),
        }
    }
}

/// The weights of a ray, for choosing cases by them.
fn weights(words: &[u32; IN]) -> [f32; 3] {
    let axis = words[12] as usize;
    let (y, z) = ((axis + 1) % 3, (axis + 2) % 3);
    let p = point(words);
    let corners = [3, 6, 9].map(|k| point(&words[k..]));
    [(1, 2), (2, 0), (0, 1)].map(|(from, to)| {
        let (a, b) = (corners[from], corners[to]);
        (p[z] - a[z]) * (b[y] - a[y]) - (p[y] - a[y]) * (b[z] - a[z])
    })
}

/// The signed distances (document 02, §8): four points about document 01's triangle, above and below it, on it and beside it in its
/// plane; then inputs of some kinds, and of each that is made for the side, chosen by what they show.
fn sides(r: &mut Random) {
    use Shows::*;
    const WANTED: [(&str, &[Shows]); 14] = [
        ("bits", &[Refused(2)]),
        ("tiny", &[Refused(6)]),
        ("fine", &[Above]),
        ("scan", &[Below]),
        ("equal-corners", &[Beside]),
        ("nearly-equal", &[Above]),
        ("on-a-corner", &[AboveAtZero]),
        ("on-an-edge", &[On]),
        ("side-in-the-plane", &[Above, Below, Beside]),
        ("side-lattice", &[Above, Beside, On]),
        ("side-over", &[Above, Below, Beside]),
        ("side-of-a-needle", &[Above, Beside]),
        ("side-underflow", &[Beside, On, NoSide]),
        ("side-beyond", &[NoSide, NoSide]),
    ];
    let step = number("signed_distance");
    for p in [[1., 1., 1.], [1., 1., -1.], [1., 1., 0.], [1., -1., 0.]] {
        print(step, &given(&[p, [0., 0., 0.], [4., 0., 0.], [0., 4., 0.]].concat(), &[]));
    }
    for (name, all) in WANTED {
        let of = kinds("signed_distance");
        let kind = of.iter().find(|k| k.name == name).expect("a kind's name");
        for shows in all {
            let mut words = [0; IN];
            (kind.fill)(r, &mut words);
            while !shows.is(&words) {
                (kind.fill)(r, &mut words);
            }
            print(step, &words);
        }
    }
}

#[derive(Clone, Copy)]
enum Shows {
    Refused(u32),
    Above,
    Below,
    /// The dot is exactly 0, and the distance is not.
    Beside,
    /// The distance is -0.
    On,
    /// The dot is above 0, and the distance, whose square is lost, is +0.
    AboveAtZero,
    /// The dot is a NaN, and the distance is not.
    NoSide,
}

impl Shows {
    fn is(self, words: &[u32; IN]) -> bool {
        let out = answer(number("signed_distance"), words);
        let (number, distance, dot) = (out[0], f32::from_bits(out[1]), side(words));
        match self {
            Shows::Refused(n) => number == n,
            _ if number != 0 => false,
            Shows::Above => dot > 0.0 && distance > 0.0,
            Shows::Below => dot < 0.0 && distance < 0.0,
            Shows::Beside => dot == 0.0 && distance != 0.0,
            Shows::On => out[1] == (-0.0_f32).to_bits(),
            Shows::AboveAtZero => out[1] == 0.0_f32.to_bits(),
            Shows::NoSide => dot.is_nan(),
        }
    }
}
