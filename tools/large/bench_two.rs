//! bench-two [ROUNDS [EDGE [PASS [QUEUE [SIGN [UPRIGHT [EDITION]]]]]]]: the libraries of two checkouts on the same jobs in one run, call by call in
//! turn, on one thread. Prints for each workload and size of tools/bench, and for as many facets as a job may have, the least time of the checks
//! before the run, of the spreading, of the crossings, of the rows and of the whole over the rounds (5; more where a call is short), in
//! milliseconds of the processor's time, before and after, and after by before. Sizes above EDGE (100) are left out. PASS is `plain`,
//! or `quick` (the default) where a library has it. QUEUE is `flat` (the default), the queue in three slices, or `row`, a row of
//! records. SIGN is `raycast` (the default) or `normal`, which both libraries must know (document 02, §8); then there are no crossings to time.
//! UPRIGHT is `z` (the default), or `x` or `y`, which both must know (§9). EDITION of the table is 1 (the default), or 2, which both must know (§11).
//! Ends with 1 if the two leave another field, other names or crossings, or count other pops or peak.
//!
//! The checks are a call that is lent a row too few: it is refused by 5, which is looked at last. The spreading is what is left of a
//! call before its crossings, less a call whose pop limit is 0: that one is refused by 8 when the cells are seeded and queued. It is a
//! difference of two calls, so the least times of both are taken before it is.
//!
//! The crossings are timed from when their counts are cleared (clock.c) to the end of the call, so the signs and the
//! rows stand in them, a few thousandths. As the difference of two calls, one of which ends before them, they were uncertain by a
//! hundredth of the whole, which is more than a tenth of some. The rows, which come last, are timed from when they are cleared. The last column is after by before of the middle times: where it is
//! far from that of the least, something else was running.

#![allow(dead_code)] // Each module serves others too.

mod clock;
mod meshes;
#[path = "../generator/random.rs"]
mod random;
#[path = "../generator/shapes.rs"]
mod shapes;
mod workloads;

use clock::Times;
use model::{Job, SignMethod};
use workloads::Workload;

/// What is lent to a call, as bench_two.c reads it.
#[repr(C)]
struct Lent {
    first: *const f32,
    size: *const f32,
    count: *const u32,
    vertices: *const f32,
    coordinate_count: usize,
    indices: *const u32,
    index_count: usize,
    field: *mut f32,
    names: *mut u32,
    crossings: *mut u32,
    rows: *mut u32,
    cells: usize,
    layers: usize,
    distances: *mut u32,
    queued: *mut u32,
    triangles: *mut u32,
    row: *mut u32,
    room: usize,
}

/// The limit, the pass, the signs, the upright axis and the edition; then what is answered.
type Call = unsafe extern "C" fn(*const Lent, u32, u32, u32, u32, u32, number: *mut u32, pops: *mut u32, peak: *mut usize);

extern "C" {
    fn job_before(lent: *const Lent, _: u32, _: u32, _: u32, _: u32, _: u32, number: *mut u32, pops: *mut u32, peak: *mut usize);
    fn job_after(lent: *const Lent, _: u32, _: u32, _: u32, _: u32, _: u32, number: *mut u32, pops: *mut u32, peak: *mut usize);
}

const SIDES: [Call; 2] = [job_before, job_after];
const PARTS: [&str; 5] = ["checks", "spreading", "crossings", "rows", "whole"];

/// How far a call comes: to the last of its checks, to its first pop, or to its end.
#[derive(Clone, Copy, PartialEq)]
enum To {
    Checks,
    FirstPop,
    End,
}

#[derive(Clone, Copy, Default, PartialEq, Debug)]
struct Answer {
    number: u32,
    pops: u32,
    peak: usize,
}

/// The buffers, one set for both: each call clears or fills them, so neither has a warmer memory than the other.
struct Buffers {
    field: Vec<f32>,
    names: Vec<u32>,
    crossings: Vec<u32>,
    rows: Vec<u32>,
    queue: [Vec<u32>; 3],
    row: Vec<u32>,
}

impl Buffers {
    /// With room for so many entries, in three slices or in a row.
    fn fitting(job: &Job, room: usize, in_row: bool) -> Buffers {
        let n = job.grid.cells() as usize;
        Buffers {
            field: vec![0.0; n],
            names: vec![0; n],
            crossings: vec![0; 3 * n],
            rows: vec![0; job.grid.layers() as usize],
            queue: [0; 3].map(|_| vec![0; if in_row { 0 } else { room }]),
            row: vec![0; if in_row { 3 * room } else { 0 }],
        }
    }

    /// The answer, and the times of the call. There are crossings and rows in one that comes to its end.
    fn ask(&mut self, side: Call, job: &Job, pass: u32, to: To) -> (Answer, Times) {
        let (limit, number) = match to {
            To::Checks => (u32::MAX, 5),
            To::FirstPop => (0, 8),
            To::End => (u32::MAX, 0),
        };
        let indices = job.indices.as_deref().unwrap_or(&[]);
        let coordinates = job.vertices.as_flattened();
        let [distances, queued, triangles] = &mut self.queue;
        let lent = Lent {
            first: job.grid.first.as_ptr(),
            size: job.grid.size.as_ptr(),
            count: job.grid.count.as_ptr(),
            vertices: coordinates.as_ptr(),
            coordinate_count: coordinates.len(),
            indices: indices.as_ptr(),
            index_count: indices.len(),
            field: self.field.as_mut_ptr(),
            names: self.names.as_mut_ptr(),
            crossings: self.crossings.as_mut_ptr(),
            rows: self.rows.as_mut_ptr(),
            cells: self.field.len(),
            layers: self.rows.len() - usize::from(to == To::Checks),
            row: if self.row.is_empty() { std::ptr::null_mut() } else { self.row.as_mut_ptr() },
            room: distances.len() + self.row.len() / 3,
            distances: distances.as_mut_ptr(),
            queued: queued.as_mut_ptr(),
            triangles: triangles.as_mut_ptr(),
        };
        let (mut answer, sign) = (Answer::default(), u32::from(job.sign == SignMethod::Normal));
        let (upright, edition) = (job.grid.upright(), job.edition());
        // SAFETY: every pointer is that of a slice or a number, with at most the slice's own length; none are shared.
        let call = || unsafe { side(&lent, limit, pass, sign, upright, edition, &mut answer.number, &mut answer.pops, &mut answer.peak) };
        let times = match to {
            To::Checks => Times { crossings: 0.0, rows: 0.0, whole: clock::whole(call) },
            _ => clock::timed(lent.crossings, lent.rows, call),
        };
        if answer.number == u32::MAX {
            eprintln!("bench-two: a library that knows no such signs, no upright axis but z, or no edition but 1");
            std::process::exit(2);
        }
        assert_eq!(answer.number, number, "the job is done, or refused where it should be");
        (answer, if to == To::Checks { times } else { times.seen() })
    }

    /// What must be the same of the two.
    fn left(&self) -> (Vec<u32>, Vec<u32>, Vec<u32>) {
        (self.field.iter().map(|x| x.to_bits()).collect(), self.names.clone(), self.crossings.clone())
    }
}

fn main() {
    let number = |at: usize| std::env::args().nth(at).and_then(|a| a.parse().ok());
    let (rounds, largest) = (number(1).unwrap_or(5), number(2).unwrap_or(100));
    let pass = match std::env::args().nth(3).as_deref() {
        None | Some("quick") => 1,
        Some("plain") => 0,
        Some(word) => {
            eprintln!("bench-two: no such pass: {word}");
            std::process::exit(2);
        }
    };
    let in_row = match std::env::args().nth(4).as_deref() {
        None | Some("flat") => false,
        Some("row") => true,
        Some(word) => {
            eprintln!("bench-two: no such queue: {word}");
            std::process::exit(2);
        }
    };
    let sign = match std::env::args().nth(5).as_deref() {
        None | Some("raycast") => SignMethod::Raycast,
        Some("normal") => SignMethod::Normal,
        Some(word) => {
            eprintln!("bench-two: no such signs: {word}");
            std::process::exit(2);
        }
    };
    let upright = workloads::upright(std::env::args().nth(6).as_deref());
    let edition = match std::env::args().nth(7).as_deref() {
        None | Some("1") => 1,
        Some("2") => 2,
        Some(word) => {
            eprintln!("bench-two: no such edition: {word}");
            std::process::exit(2);
        }
    };
    println!("load before: {}", load());
    let words = ["workload", "cells", "part", "before, ms", "after, ms", "ratio", "of middles"];
    println!("{:<15}{:>15}  {:<10}{:>12}{:>12}{:>8}{:>12}", words[0], words[1], words[2], words[3], words[4], words[5], words[6]);
    let (mut ratios, mut differences) = ([const { Vec::new() }; 5], 0);
    for workload in workloads::all(largest).chain(workloads::most_facets(largest)) {
        let counts = workload.counts();
        let Workload { name: workload, edge, job } = workload.standing(upright);
        let job = Job { sign, edition: Some(edition), ..job };
        // Twice as many entries as cells are enough for these jobs.
        let mut buffers = Buffers::fitting(&job, 2 * job.grid.cells() as usize, in_row);
        let [before, after] = SIDES.map(|side| (buffers.ask(side, &job, pass, To::End).0, buffers.left()));
        if before != after {
            differences += 1;
            println!("{workload} {counts}: DIFFERENT, {:?} before and {:?} after", before.0, after.0);
        }
        // The times of the checks, up to the first pop, up to the crossings, of the crossings, of the rows and of the whole, of each side.
        let mut times = [const { [const { Vec::new() }; 6] }; 2];
        for round in 0..rounds * (10_000 / (edge * edge)) {
            for turn in 0..2 {
                // Each goes first half the time.
                let side = (round as usize + turn) % 2;
                let checks = buffers.ask(SIDES[side], &job, pass, To::Checks).1.whole;
                let first = buffers.ask(SIDES[side], &job, pass, To::FirstPop).1.whole;
                let Times { crossings, rows, whole } = buffers.ask(SIDES[side], &job, pass, To::End).1;
                for (times, time) in times[side].iter_mut().zip([checks, first, whole - crossings, crossings, rows, whole]) {
                    times.push(time);
                }
            }
        }
        let of = times.map(|parts| {
            let [checks, first, before, crossings, rows, whole] = parts.map(|times| {
                let times = sorted(times);
                [times[0], middle(&times)]
            });
            [checks, [before[0] - first[0], before[1] - first[1]], crossings, rows, whole]
        });
        for (part, name) in PARTS.into_iter().enumerate() {
            if sign == SignMethod::Normal && name == "crossings" {
                continue;
            }
            let [[a, middle_a], [b, middle_b]] = of.map(|side| side[part]);
            let of_middles = middle_b / middle_a;
            println!("{workload:<15}{counts:>15}  {name:<10}{a:>12.3}{b:>12.3}{:>8.3}{of_middles:>12.3}", b / a);
            ratios[part].push(b / a);
        }
    }
    for (part, ratios) in PARTS.into_iter().zip(ratios).filter(|(_, ratios)| !ratios.is_empty()) {
        let ratios = sorted(ratios);
        let (least, most) = (ratios[0], ratios[ratios.len() - 1]);
        println!("{part}: after by before {least:.3} to {most:.3}, the middle one {:.3}", middle(&ratios));
    }
    println!("load after: {}", load());
    println!("{differences} differences");
    std::process::exit(i32::from(differences > 0));
}

fn sorted(mut times: Vec<f64>) -> Vec<f64> {
    times.sort_by(f64::total_cmp);
    times
}

fn middle(sorted: &[f64]) -> f64 {
    sorted[sorted.len() / 2]
}

fn load() -> String {
    std::fs::read_to_string("/proc/loadavg").unwrap_or_default().trim().to_string()
}
