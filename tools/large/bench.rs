//! bench [ROUNDS [EDGE [WORD [UPRIGHT]]]]: the library and the Rust on the same jobs in one run, turn by turn, on one thread each, with Raycast signs and
//! with Normal ones; for these the Rust has the queue's order of document 02, §8, put in. Prints for each workload and size the least time of
//! each part over the rounds (5; at most three for the largest size), in milliseconds of the processor's time, the ratios, and how many
//! entries were taken and waited. Sizes above EDGE (100) are left out, and with WORD all workloads that have it neither in their name nor
//! in their counts, as 1024; `raycast` and `normal` are the workloads with these signs. z is upright, or with UPRIGHT `x` or `y` that axis:
//! the rows run along it (document 02, §9), and nothing else depends on it. With `rows` as the WORD the rows alone are timed, with x, y and z
//! upright in turn and in both editions of the table (§11).
//!
//! The Rust's parts are what its own log lines say. The library has one call for a whole job. Its crossings are timed from
//! when their counts are cleared (clock.c) to the end of the call, so the signs and the rows stand in them. Seeding and
//! spreading come out of two calls more: with no pop allowed it ends after seeding and queueing; with one pop less than the job
//! takes it ends before the crossings. What a refusal clears again stands in both. The library beside the Rust takes the
//! quick pass; the whole is timed over a row of records too.
//!
//! The crossings are timed by both passes, in turn. `adding` is what each spends beyond one store for each hit. The quick pass
//! sums back, which takes as long whatever the counts hold: that is its time less the plain one's on the same grid with no
//! triangle. The plain pass takes this and what it takes longer for the job's crossings.
//!
//! The rows come last, and are timed as the crossings are, from when they are cleared to the end of the call. The Rust has none.
//!
//! With Normal signs neither has crossings. What the library still does there, clearing their counts and counting the rows, stands in the whole
//! alone.

#![allow(dead_code)] // Each module serves compare.rs too.

mod clock;
mod meshes;
mod port;
#[path = "../generator/random.rs"]
mod random;
mod rust;
#[path = "../generator/shapes.rs"]
mod shapes;
mod workloads;

use clock::Times;
use model::grid::Grid;
use model::topology::triangles;
use model::{Job, SignMethod};
use port::{ask, ask_with_room, Answer, By, Lent};
use shapes::Mesh;
use web_time::Instant;
use workloads::Workload;

const PARTS: [&str; 4] = ["seeding", "spreading", "crossings", "whole"];

/// The plain and the quick pass over three lists; what callers take.
const PASSES: [By; 2] = [By { records: false, quick: false }, TAKEN];
const TAKEN: By = By { records: false, quick: true };

/// Milliseconds of the three parts and the whole.
type Parts = [f64; 4];

/// The milliseconds of a call that ends before the crossings.
fn cut_short(job: &Job, lent: &mut Lent, limit: u32) -> f64 {
    let begin = Instant::now();
    let answer = ask(job, lent, limit, TAKEN);
    let time = begin.elapsed().as_secs_f64() * 1e3;
    assert_eq!(answer.number, 8, "the answer with {limit} pops");
    time
}

/// The milliseconds of a call that comes to its end.
fn whole(job: &Job, lent: &mut Lent, by: By) -> Times {
    let mut answer = Answer::default();
    let times = clock::timed(lent.crossings.as_ptr(), lent.rows.as_ptr(), || answer = ask(job, lent, u32::MAX, by));
    assert_eq!(answer.number, 0, "the answer by {by:?}");
    times.seen()
}

/// The milliseconds of a whole call with Normal signs.
fn whole_without_rays(job: &Job, lent: &mut Lent, by: By) -> f64 {
    let mut answer = Answer::default();
    let time = clock::whole(|| answer = ask(job, lent, u32::MAX, by));
    assert_eq!(answer.number, 0, "the answer by {by:?}");
    time
}

fn theirs(job: &Job) -> Parts {
    let begin = Instant::now();
    let answer = rust::run(job).expect("the Rust runs through");
    let whole = begin.elapsed().as_secs_f64() * 1e3;
    [answer.times[0], answer.times[1], answer.times[2], whole]
}

fn main() {
    let number = |at: usize| std::env::args().nth(at).and_then(|a| a.parse().ok());
    let (rounds, largest) = (number(1).unwrap_or(5), number(2).unwrap_or(100));
    let word = std::env::args().nth(3).unwrap_or_default();
    let upright = workloads::upright(std::env::args().nth(4).as_deref());
    // What is asked for, and what is left of the word.
    let (with_raycast, with_normal, word) = match word.as_str() {
        "raycast" => (true, false, ""),
        "normal" => (false, true, ""),
        "rows" => (false, false, ""),
        word => (true, true, word),
    };
    let chosen = || workloads::all(largest).filter(|w| w.name.contains(word) || w.counts().contains(word)).map(|w| w.standing(upright));
    mesh_oracle::begin();
    println!("load before: {}", load());
    if with_raycast {
        raycast(chosen(), rounds);
    }
    if with_normal {
        normal(chosen(), rounds);
    }
    if !with_raycast && !with_normal {
        rows(chosen(), rounds);
    }
    println!("load after: {}", load());
}

/// How often a workload is asked for.
fn rounds_of(workload: &Workload, rounds: u32) -> u32 {
    if workload.edge == 100 {
        rounds.min(3)
    } else {
        rounds
    }
}

fn tell(workload: &Workload, signs: &str, answer: Answer) {
    let cells = f64::from(workload.job.grid.cells());
    println!(
        "{}, {} cells, {} triangles{signs}: pops {} ({:.2} a cell), peak {} ({:.2} a cell), grazed {}",
        workload.name,
        workload.counts(),
        triangles(&workload.job).len(),
        answer.pops,
        f64::from(answer.pops) / cells,
        answer.peak,
        answer.peak as f64 / cells,
        answer.grazed
    );
}

/// A part's times and their ratio.
fn tell_part(part: &str, [ours, theirs]: [f64; 2], our_whole: f64) -> f64 {
    let (ratio, share) = (theirs / ours, 100.0 * ours / our_whole);
    println!("    {part:<10} {ours:>10.2} ms the library ({share:>3.0}%) {theirs:>10.2} ms the Rust   {ratio:.2} times as fast");
    ratio
}

fn tell_records(records: f64, their_whole: f64) -> f64 {
    let ratio = their_whole / records;
    println!("    {:<10} {records:>10.2} ms over a row of records {:>25} {ratio:.2} times as fast", "whole", "");
    ratio
}

fn raycast(workloads: impl Iterator<Item = Workload>, rounds: u32) {
    let (mut slowest, mut slowest_records) = ([f64::MAX; 4], f64::MAX);
    let (mut by_plain, mut adding_long) = ([f64::MAX, f64::MIN], f64::MAX);
    for workload in workloads {
        let job = &workload.job;
        let bare = meshes::plain(job.grid.clone(), Mesh::default());
        let mut lent = Lent::fitting(&job.grid, 2 * job.grid.cells() as usize);
        let answer = ask_with_room(job, &mut lent, TAKEN);
        let (mut seeded, mut spread, mut b, mut records) = (f64::MAX, f64::MAX, [f64::MAX; 4], f64::MAX);
        // The crossings and the whole; the crossings by each pass; the same with no triangle.
        let (mut taken, mut passes, mut bares) = ([f64::MAX; 2], [f64::MAX; 2], [f64::MAX; 2]);
        for round in 0..rounds_of(&workload, rounds) {
            least(&mut seeded, cut_short(job, &mut lent, 0));
            least(&mut spread, cut_short(job, &mut lent, answer.pops - 1));
            let times = whole(job, &mut lent, TAKEN);
            leasts(&mut taken, [times.crossings, times.whole]);
            // More turns where a call is short. Each pass goes first half the time.
            for turn in 0..2 * (20_000 / workload.edge.pow(2)) {
                let pass = ((round + turn / 2 + turn) % 2) as usize;
                least(&mut passes[pass], whole(job, &mut lent, PASSES[pass]).crossings);
                for _ in 0..3 {
                    least(&mut bares[pass], whole(&bare, &mut lent, PASSES[pass]).crossings);
                }
            }
            leasts(&mut b, theirs(job));
            // What makes the row of the three lists, and back, is counted too.
            least(&mut records, whole(job, &mut lent, By { records: true, ..TAKEN }).whole);
        }
        let a = [seeded, spread - seeded, taken[0], taken[1]];
        tell(&workload, "", answer);
        for part in 0..4 {
            least(&mut slowest[part], tell_part(PARTS[part], [a[part], b[part]], a[3]));
        }
        least(&mut slowest_records, tell_records(records, b[3]));
        let [plain, quick] = passes;
        let ratio = quick / plain;
        by_plain = [by_plain[0].min(ratio), by_plain[1].max(ratio)];
        println!("    {:<10} {plain:>10.3} ms the plain pass {quick:>17.3} ms the quick  {ratio:.3} times as long", "crossings");
        let summing = bares[1] - bares[0];
        let adding = plain - quick + summing;
        let ratio = adding / summing;
        if workload.is_long() {
            least(&mut adding_long, ratio);
        }
        println!("    {:<10} {adding:>10.3} ms the plain pass {summing:>17.3} ms the quick  {ratio:.2} times as fast", "adding");
    }
    println!("whole over a row of records: at least {slowest_records:.2} times as fast");
    for part in 0..4 {
        println!("{}: at least {:.2} times as fast", PARTS[part], slowest[part]);
    }
    println!("crossings by the quick pass: {:.3} to {:.3} times as long as by the plain", by_plain[0], by_plain[1]);
    if adding_long < f64::MAX {
        println!("adding on tall and lying grids: the quick pass at least {adding_long:.2} times as fast");
    }
}

fn normal(workloads: impl Iterator<Item = Workload>, rounds: u32) {
    // Seeding, spreading and the whole; and the whole over a row of records.
    let (mut slowest, mut slowest_records) = ([f64::MAX; 3], f64::MAX);
    for mut workload in workloads {
        workload.job.sign = SignMethod::Normal;
        let job = &workload.job;
        let mut lent = Lent::fitting(&job.grid, 2 * job.grid.cells() as usize);
        let answer = ask_with_room(job, &mut lent, TAKEN);
        let (mut seeded, mut spread, mut b) = (f64::MAX, f64::MAX, [f64::MAX; 4]);
        let [mut flat, mut records] = [f64::MAX; 2];
        for _ in 0..rounds_of(&workload, rounds) {
            // More turns where a call is short.
            for _ in 0..(10_000 / workload.edge.pow(2)).max(1) {
                least(&mut seeded, cut_short(job, &mut lent, 0));
                least(&mut spread, cut_short(job, &mut lent, answer.pops - 1));
                least(&mut flat, whole_without_rays(job, &mut lent, TAKEN));
                least(&mut records, whole_without_rays(job, &mut lent, By { records: true, ..TAKEN }));
                leasts(&mut b, theirs(job));
            }
        }
        tell(&workload, ", Normal signs", answer);
        for (part, times) in [[seeded, b[0]], [spread - seeded, b[1]], [flat, b[3]]].into_iter().enumerate() {
            least(&mut slowest[part], tell_part([PARTS[0], PARTS[1], PARTS[3]][part], times, flat));
        }
        least(&mut slowest_records, tell_records(records, b[3]));
    }
    println!("whole over a row of records, Normal signs: at least {slowest_records:.2} times as fast");
    for (part, ratio) in [PARTS[0], PARTS[1], PARTS[3]].into_iter().zip(slowest) {
        println!("{part}, Normal signs: at least {ratio:.2} times as fast");
    }
}

/// The rows with each axis upright, in both editions. With Normal signs, which have no rays, a call comes to them sooner.
fn rows(workloads: impl Iterator<Item = Workload>, rounds: u32) {
    let head = ["rows, ms", "cells", "edition", "x upright", "y", "z", "x by z", "y by z"];
    println!("{:<16}{:>18}{:>9}{:>12}{:>10}{:>10}{:>8}{:>8}", head[0], head[1], head[2], head[3], head[4], head[5], head[6], head[7]);
    for mut workload in workloads {
        workload.job.sign = SignMethod::Normal;
        let asked = [1, 2].map(|edition| [0, 1, 2].map(|upright| (edition, upright)));
        let mut of = asked.map(|axes| {
            axes.map(|(edition, upright)| {
                let job = workload.job.clone();
                let job = Job { grid: Grid { upright: Some(upright), ..job.grid.clone() }, edition: Some(edition), ..job };
                let mut lent = Lent::fitting(&job.grid, 2 * job.grid.cells() as usize);
                ask_with_room(&job, &mut lent, TAKEN);
                (job, lent, f64::MAX)
            })
        });
        // More turns where a call is short.
        for _ in 0..rounds_of(&workload, rounds) * (10_000 / workload.edge.pow(2)).max(1) {
            for (job, lent, time) in of.as_flattened_mut() {
                least(time, whole(job, lent, TAKEN).rows);
            }
        }
        let times = of.map(|axes| axes.map(|(_, _, time)| time));
        for ([x, y, z], edition) in times.into_iter().zip([1, 2]) {
            println!("{:<16}{:>18}{edition:>9}{x:>12.4}{y:>10.4}{z:>10.4}{:>8.2}{:>8.2}", workload.name, workload.counts(), x / z, y / z);
        }
        let [x, y, z] = [0, 1, 2].map(|axis| times[1][axis] / times[0][axis]);
        println!("{:<16}{:>18}{:>9}{x:>12.2}{y:>10.2}{z:>10.2}", "", "", "2 by 1");
    }
}

fn least(sofar: &mut f64, time: f64) {
    *sofar = sofar.min(time);
}

fn leasts<const N: usize>(sofar: &mut [f64; N], times: [f64; N]) {
    for (sofar, time) in sofar.iter_mut().zip(times) {
        least(sofar, time);
    }
}

fn load() -> String {
    std::fs::read_to_string("/proc/loadavg").unwrap_or_default().trim().to_string()
}
