//! compare-distances-check PAIRS SEED: document 01's reading of `compare_distances`, as the model has it, held to the
//! source's own function with the real float_cmp. Random patterns, and pairs around each edge of the reading.
//! Prints how many pairs of each kind were compared; ends with 1 at the first difference.

#[allow(dead_code)]
mod random;

use mesh_oracle::guarded;
use mesh_to_sdf::probe::compare_distances;
use model::order::compare;
use random::Random;
use std::cmp::Ordering;

const KINDS: [&str; 10] = [
    "any two patterns",
    "patterns at most 4 apart",
    "patterns at most 4 apart, opposite signs",
    "difference around 1e-6",
    "difference around 1e-6, opposite signs",
    "both near zero or subnormal",
    "around 2^-4 .. 2^2, few patterns apart (1e-6 and 2 patterns cross)",
    "special numbers",
    "equal magnitudes",
    "ends of the range and infinities",
];

const SPECIAL: [u32; 12] = [
    0x0000_0000,
    0x0000_0001,
    0x0000_0002,
    0x0000_0003,
    0x007f_ffff,
    0x0080_0000,
    0x3586_37bd,
    0x3586_37be,
    0x3f80_0000,
    0x7f7f_fffe,
    0x7f7f_ffff,
    0x7f80_0000,
];

/// Any bit pattern but a NaN's.
fn any(r: &mut Random) -> f32 {
    loop {
        let x = f32::from_bits(r.next() as u32);
        if !x.is_nan() {
            return x;
        }
    }
}

fn pair(kind: usize, r: &mut Random) -> (f32, f32) {
    let near = |x: u32, r: &mut Random| f32::from_bits((x as i64 + r.below(9) as i64 - 4).clamp(0, 0x7f80_0000) as u32);
    let sign = |x: f32, r: &mut Random| if r.below(2) == 0 { x } else { -x };
    match kind {
        0 => (any(r), any(r)),
        1 | 2 => {
            let a = any(r).abs();
            let b = near(a.to_bits(), r);
            opposed(kind == 2, a, b, r)
        }
        3 | 4 => {
            // The exponents at which 1e-6 is worth some patterns.
            let a = f32::from_bits((r.below(48) as u32 + 84) << 23 | r.next() as u32 & 0x7f_ffff);
            let b = near((a + 1e-6).to_bits(), r);
            opposed(kind == 4, a, b, r)
        }
        5 => {
            let small = |r: &mut Random| {
                let most = 1 << r.pick(&[8, 23, 24, 30]);
                sign(f32::from_bits(r.below(most) as u32), r)
            };
            (small(r), small(r))
        }
        6 => {
            let a = f32::from_bits(0x3d80_0000 + r.below(6 << 23) as u32);
            let b = f32::from_bits(a.to_bits() + r.below(20) as u32);
            let (a, b) = (sign(a, r), sign(b, r));
            if r.below(2) == 0 {
                (a, b)
            } else {
                (b, a)
            }
        }
        7 => {
            let pick = |r: &mut Random| sign(f32::from_bits(r.pick(&SPECIAL)), r);
            (pick(r), pick(r))
        }
        8 => {
            let a = any(r);
            (a, sign(a, r))
        }
        _ => {
            let a = f32::from_bits(0x7f80_0000 - r.below(6) as u32);
            let b = f32::from_bits(0x7f80_0000 - r.below(6) as u32);
            (sign(a, r), sign(b, r))
        }
    }
}

fn opposed(opposite: bool, a: f32, b: f32, r: &mut Random) -> (f32, f32) {
    let (a, b) = if r.below(2) == 0 { (a, b) } else { (b, a) };
    let a = if r.below(2) == 0 { a } else { -a };
    (a, if opposite { b.copysign(-a) } else { b.copysign(a) })
}

fn hold(kind: usize, a: f32, b: f32, counts: &mut [[u64; 3]; 10]) {
    let theirs = compare_distances(a, b);
    let ours = compare(a, b);
    if theirs != ours {
        println!("{:08x} {:08x}: the source says {theirs:?}, document 01's reading {ours:?}", a.to_bits(), b.to_bits());
        std::process::exit(1);
    }
    counts[kind][(theirs as i8 + 1) as usize] += 1;
}

fn main() {
    let args: Vec<u64> = std::env::args().skip(1).map(|a| a.parse().expect("a number")).collect();
    let (pairs, seed) = (args.first().copied().unwrap_or(20_000_000), args.get(1).copied().unwrap_or(1));
    let mut r = Random::new(seed, 0);
    let mut counts = [[0; 3]; 10];
    for n in 0..pairs {
        let kind = (n % 10) as usize;
        let (a, b) = pair(kind, &mut r);
        hold(kind, a, b, &mut counts);
    }
    // Every pair of special numbers with every sign, whatever the seed.
    for a in SPECIAL {
        for b in SPECIAL {
            for signs in 0..4 {
                let at = |bits: u32, minus: bool| f32::from_bits(bits | u32::from(minus) << 31);
                hold(7, at(a, signs & 1 == 1), at(b, signs & 2 == 2), &mut counts);
            }
        }
    }
    println!("{:>12} {:>12} {:>12}", "less", "equal", "greater");
    for (kind, [less, equal, greater]) in counts.iter().enumerate() {
        println!("{less:>12} {equal:>12} {greater:>12}  {}", KINDS[kind]);
    }
    nan(&mut r);
    println!("{} pairs, 0 differences", counts.iter().flatten().sum::<u64>());
}

/// A NaN lies outside the reading (document 01 answers 6): what the source does there.
fn nan(r: &mut Random) {
    let (mut panics, mut orders) = (0, 0);
    for n in 0..30_000 {
        let nan = f32::from_bits(0x7f80_0001 + r.below(0x7f_fffe) as u32 | (r.below(2) as u32) << 31);
        // A third next to infinity, where the patterns may be at most 2 apart.
        let nan = if n % 3 == 0 { f32::from_bits(0x7f80_0001 + r.below(2) as u32) } else { nan };
        let other = if n % 3 == 0 { f32::INFINITY.copysign(r.unit()) } else { any(r) };
        let (a, b) = if n % 2 == 0 { (nan, other) } else { (other, nan) };
        match guarded(|| compare_distances(a, b)) {
            Err(_) => panics += 1,
            Ok(Ordering::Less | Ordering::Equal | Ordering::Greater) => orders += 1,
        }
    }
    println!("with a NaN the source panics in {panics} of 30000 pairs, and gives an order in {orders} (opposite signs, a NaN");
    println!("  within 2 patterns of infinity)");
}
