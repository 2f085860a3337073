//! compare-steps N SEED: each step of the port held to the unmodified Rust, bit for bit, on N inputs of each kind; whether a ray
//! grazes, to the model. Prints what was met and the first difference of each step and kind; ends with 1 if there was any. Then the
//! time of a distance, a signed one and a ray test, the port's and the Rust's.

mod inputs;
mod port;
#[path = "../generator/random.rs"]
#[allow(dead_code)]
mod random;
mod steps;

use inputs::{kinds, upright, Kind};
use port::PORT;
use random::Random;
use std::hint::black_box;
use std::time::Instant;
use steps::{bare_distance, bare_ray, bare_signed_distance, number, rust_ray, side, Step, IN, OUT, STEPS, UPRIGHT};

/// The answers met, by document 01's number.
#[derive(Default)]
struct Met {
    given: u64,
    /// Of these, the hits of a ray, the points inside a grid and the positive signed distances.
    hits: u64,
    /// The rays that graze, and the signed distances whose dot is exactly 0.
    grazed: u64,
    /// Of signed distances, those that are -0, and those whose dot is a NaN.
    minus_zeros: u64,
    nan_dots: u64,
    /// Of grids, those with each axis upright, and those with none, which are refused by 1.
    upright: [u64; 4],
    refused: [u64; 7],
    differences: u64,
}

impl Met {
    fn add(&mut self, other: &Met) {
        self.given += other.given;
        self.hits += other.hits;
        self.grazed += other.grazed;
        self.minus_zeros += other.minus_zeros;
        self.nan_dots += other.nan_dots;
        self.differences += other.differences;
        for (sum, x) in self.refused.iter_mut().chain(&mut self.upright).zip(other.refused.into_iter().chain(other.upright)) {
            *sum += x;
        }
    }
}

fn hex(words: &[u32]) -> String {
    words.iter().map(|w| format!("{w:08x}")).collect::<Vec<_>>().join(" ")
}

/// A NaN has one pattern in the port's text, and any in a float that it returns.
fn settled(step: &Step, mut out: [u32; OUT]) -> [u32; OUT] {
    if step.name == "sqrt" && f32::from_bits(out[0]).is_nan() {
        out[0] = 0x7fc0_0000;
    }
    out
}

fn hold(step: &Step, kind: &Kind, n: u64, r: &mut Random, standing: &mut Random) -> Met {
    let ask = PORT[number(step.name)];
    let mut met = Met::default();
    let mut words = [0; IN];
    for _ in 0..n {
        (kind.fill)(r, &mut words);
        if step.takes_grid() {
            words[UPRIGHT] = upright(standing);
            met.upright[words[UPRIGHT].min(3) as usize] += 1;
        }
        let (mut owed, mut got) = ([0; OUT], [0; OUT]);
        (step.owed)(&words, &mut owed);
        ask(&words, &mut got);
        let got = settled(step, got);
        if owed != got {
            if met.differences == 0 {
                let given = hex(&words[..step.takes]);
                println!("difference {} {}: {given}", step.name, kind.name);
                println!("  owed {}", hex(&owed[..step.gives]));
                println!("  got  {}", hex(&got[..step.gives]));
            }
            met.differences += 1;
        }
        match owed[0] {
            k @ 1..=6 if step.gives > 1 => met.refused[k as usize] += 1,
            _ => met.given += 1,
        }
        met.hits += u64::from(owed[1] == 1 && ["ray", "grid_snap"].contains(&step.name));
        met.grazed += u64::from(owed[2] == 1 && step.name == "ray");
        if step.name == "signed_distance" && owed[0] == 0 {
            let dot = side(&words);
            met.hits += u64::from(owed[1] >> 31 == 0);
            met.grazed += u64::from(dot == 0.0);
            met.minus_zeros += u64::from(owed[1] == 1 << 31);
            met.nan_dots += u64::from(dot.is_nan());
        }
    }
    met
}

fn line(step: &str, kind: &str, n: u64, met: &Met) {
    let [a, b, c, d] = [1, 2, 4, 6].map(|k| met.refused[k]);
    let (given, hits, grazed, differ) = (met.given, met.hits, met.grazed, met.differences);
    println!("{step:16} {kind:20} {n:>10} {given:>10} {hits:>9} {grazed:>9} {a:>9} {b:>9} {c:>9} {d:>9} {differ:>6}");
}

fn compare(n: u64, seed: u64) -> u64 {
    println!("step             kind                     inputs      given hit/in./+  grazed/0 refused 1         2         4         6 differ");
    let mut differences = 0;
    for (s, step) in STEPS.iter().enumerate() {
        let mut all = Met::default();
        let of = kinds(step.name);
        for (k, kind) in of.iter().enumerate() {
            let mut r = Random::new(seed ^ ((s as u64) << 40) ^ ((k as u64) << 48), 0);
            let met = hold(step, kind, n, &mut r, &mut Random::new(seed, k as u64));
            line(step.name, kind.name, n, &met);
            all.add(&met);
        }
        line(step.name, "(all)", n * of.len() as u64, &all);
        if step.takes_grid() {
            let [x, y, z, none] = all.upright;
            println!("{x} of the grids have x upright, {y} have y, {z} have z; {none} say no axis, and are refused by 1");
        }
        if step.name == "signed_distance" {
            println!("{} of the dots are exactly 0, {} distances are -0; {} dots are NaNs", all.grazed, all.minus_zeros, all.nan_dots);
        }
        differences += all.differences;
    }
    differences
}

/// The least time of a call in nanoseconds, of nine passes over the inputs.
fn time(inputs: &[[u32; IN]], mut call: impl FnMut(&[u32; IN])) -> f64 {
    let mut least = f64::INFINITY;
    for _ in 0..9 {
        let begun = Instant::now();
        for words in inputs {
            call(black_box(words));
        }
        least = least.min(begun.elapsed().as_nanos() as f64 / inputs.len() as f64);
    }
    least
}

fn measure(seed: u64) {
    println!("\nns a call        kind                       port   the Rust  with the bounds tested");
    for step in ["distance", "signed_distance", "ray"] {
        for kind in kinds(step).iter().filter(|k| ["fine", "scan"].contains(&k.name)) {
            let mut r = Random::new(seed, 0);
            let mut inputs = vec![[0; IN]; 20_000];
            inputs.iter_mut().for_each(|words| (kind.fill)(&mut r, words));
            let ask = PORT[number(step)];
            let port = time(&inputs, |words| {
                let mut out = [0; OUT];
                ask(words, &mut out);
                black_box(out);
            });
            let rust = match step {
                "distance" => time(&inputs, |words| {
                    black_box(bare_distance(words));
                }),
                "signed_distance" => time(&inputs, |words| {
                    black_box(bare_signed_distance(words));
                }),
                _ => time(&inputs, |words| {
                    black_box(bare_ray(words));
                }),
            };
            let owed = if step == "ray" { rust_ray } else { STEPS[number(step)].owed };
            let tested = time(&inputs, |words| {
                let mut out = [0; OUT];
                owed(words, &mut out);
                black_box(out);
            });
            println!("{step:16} {:20} {port:>10.1} {rust:>10.1} {tested:>10.1}", kind.name);
        }
    }
}

fn main() {
    let numbers: Vec<u64> = std::env::args().skip(1).map(|a| a.parse().expect("a number")).collect();
    let [n, seed] = numbers[..] else { panic!("compare-steps N SEED") };
    let differences = compare(n, seed);
    measure(seed);
    println!("\n{differences} differences");
    std::process::exit(i32::from(differences != 0));
}
