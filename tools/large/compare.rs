//! compare N SEED [SET [FIRST]]: N jobs through the library against the Rust, from job FIRST (0) on. Prints
//! each difference with what makes it again, up to 20, and how much was compared; ends with 1 if there was any. A job is
//! asked for in four ways, over three lists or a row of records and by the plain or the quick pass. The jobs take turns in which
//! of the four is held to the Rust. Then the other form of the queue and the other pass, together, must give the same; in
//! `small` all four.
//!
//!   small    the kinds of tools/jobs within the job program's limits, old jobs and long lists among them, and lent buffers of other
//!            lengths: every answer 0 to 8, 10, 13 and 14, with every buffer, against the model of document 01; then against the Rust
//!   middle   to 64 x 64 x 64 cells and 6,000 triangles
//!   large    to 100 x 100 x 100 cells and 20,000 triangles (the default); the crossing counts of every second
//!            job, since the Rust works them out again for it
//!   bounds   one job at each bound of document 01, one whose rays that graze pass 32 bits, and one whose one row is the most that there can be;
//!            then jobs of as many triangles as there may be, whose last alone is off the grid by one float, or touches its box; and strips
//!            about that number; with N = 0 the
//!            library alone, which takes a minute where the Rust takes many; SEED does not matter
//!
//! These have Raycast signs, and the Rust is the unmodified one. With Normal signs (document 02, §8), against the Rust with the queue's order of
//! that request put in: `normal-small`, the kinds of the set `normal` of tools/jobs; `normal-middle` and `normal-large`, the sizes and the kinds of
//! mesh of those two, and open decks; `normal-bounds`. There are no rays then: no crossings, none that graze, and all four ways give the same.
//!
//! Each job has an axis upright by chance (document 02, §9), or the one that its text says: the rows are held to those that the oracle counts off
//! the Rust's field along it. The other form of the queue and the other pass are asked for with the next axis upright: all but the rows is the
//! same then; in `bounds` the third axis too. Buffers of a wrong length have, for the rows, the count of another axis among others: 5. An axis that
//! is none of the three is refused by 1, before all else.
//!
//! Each job has an edition of the layer table by chance (document 02, §11), or the one that its text says, and its rows are those that the oracle
//! counts off the Rust's field in it. Where the next axis is asked for, the other edition is: all but the rows is the same then. In `small` and
//! in `bounds` the other edition is asked for along the same axis too. In `middle` and `large` one job in six is held once more with plates on
//! layers of centres, so that many cells are at zero; how many zeros of each sign were counted is told. An edition that there is not is refused by
//! 14, over buffers of right and of wrong lengths that stay as they were lent; as a strip, and with an index or a vertex out of bounds, too; with
//! a grid or an axis out of bounds it is 1.
//!
//! In `middle` and `large` every job is accepted. One in twelve is asked for with a ladder off the grid too (document 02, §6): that
//! is refused by 10, in all four ways, and over buffers of a wrong length as well (where the queue's lists differ, in two), and each
//! buffer stays as it was lent.
//!
//! Strips are withdrawn (document 02, §7), and the Rust still takes them. Wherever a job is a strip, the library is given the list of its
//! triangles and the Rust the strip itself. The strip is refused by 13, in all four ways, over buffers of right and of wrong lengths that stay
//! as they were lent; with an index beyond the vertices or a ladder beside it too; with a vertex or a grid out of bounds it is 2 or 1.
//!
//! The names of each job that is done are indexed by facet (document 02, §12), and the index is held to a plain one (index.rs). One in four is brought
//! up to date too, from the names of another run on the same grid: with a corner of one facet moved, as when a dent is repaired, or with signs by
//! the other method; and with a wrong index it is refused by 18.
//!
//! The Rust has no reply for a ray that grazes (document 02, §3). The total of `small` is the model's; that of the others is
//! counted here, every ray with every triangle, by the model's ray test; in `large` where the crossings are held too. In `bounds`
//! only the last job's is held, since it is known: all its facets are points, which every ray grazes.

#[path = "../generator/damage.rs"]
mod damage;
mod index;
#[path = "../generator/inside.rs"]
mod inside;
#[path = "../generator/kinds.rs"]
mod kinds;
mod meshes;
#[path = "../generator/normal.rs"]
mod normal;
#[path = "../generator/off_grid.rs"]
mod off_grid;
#[path = "../generator/old.rs"]
mod old;
mod port;
#[path = "../generator/random.rs"]
mod random;
mod rust;
#[path = "../generator/shapes.rs"]
mod shapes;
#[path = "../generator/table.rs"]
mod table;
#[path = "../generator/tidy.rs"]
mod tidy;
#[path = "../generator/upright.rs"]
mod upright;

use model::convert::as_list;
use model::geometry::{ray, Reply};
use model::grid::{Grid, AXES};
use model::topology::Topology;
use model::{bounds, text, topology, Done, Job, SignMethod};
use port::{Answer, By, Lent};
use random::Random;
use rust::Held;
use std::collections::BTreeMap;

/// Where the rows stand among the lent buffers.
const ROWS: usize = 3;
/// Numbers that are no axis.
const NO_AXES: [u32; 5] = [3, u32::MAX, 4, 256, 1 << 31];

/// What a run has seen.
#[derive(Default)]
struct Seen {
    jobs: u64,
    kinds: BTreeMap<String, u64>,
    answers: BTreeMap<u32, u64>,
    to_rust: u64,
    /// Jobs that were refused by 10, 13 and 14 over buffers of right and of wrong lengths: these come before 5.
    unchanged: BTreeMap<u32, [u64; 2]>,
    /// Lists that were held to what the Rust gives the strip.
    strips: u64,
    /// Jobs that were asked for in each of the four ways.
    asked: [u64; 4],
    /// Jobs that left the rows of each axis.
    upright: [u64; 3],
    /// Jobs with an axis that is none.
    no_axis: u64,
    /// Jobs that left the rows of each edition, and how many cells at +0 and at -0 those of edition 2 counted.
    editions: [u64; 2],
    zeros: [u64; 2],
    /// Jobs of an edition that there is not.
    no_edition: u64,
    /// Jobs that were held once more with plates on layers of centres.
    plates: u64,
    /// Jobs whose names were indexed; those with an index brought up to date from other names, how many cells had another name, and how many wrong
    /// indices were refused.
    indexed: u64,
    updated: u64,
    renamed: u64,
    stale: u64,
    /// Jobs whose rays that graze were counted here; those with any, how many in all, the most.
    counted: u64,
    with_grazed: u64,
    grazed: u64,
    most_grazed: u64,
    nans: u64,
    cells: u64,
    triangles: u64,
    most: [u64; 2],
    pops: u64,
    ours: f64,
    theirs: f64,
    differences: u64,
}

impl Seen {
    /// One job held to the Rust; of a strip, the list of its triangles to what the Rust gives the strip.
    fn hold(&mut self, original: &Job, lent: &mut Lent, by: By, with_crossings: bool) -> Result<Held, String> {
        let job = &as_list(original);
        let held = rust::hold(job, original, lent, by, with_crossings)?;
        self.strips += u64::from(original.topology == Topology::Strip);
        self.hold_other(job, by, &held, lent)?;
        let (cells, triangles) = (u64::from(job.grid.cells()), topology::triangles(job).len() as u64);
        if with_crossings {
            self.count_grazed(job, held.answer)?;
        }
        self.to_rust += 1;
        self.nans += u64::from(held.answer.number == 6);
        self.cells += cells;
        self.triangles += triangles;
        self.most = [self.most[0].max(cells), self.most[1].max(triangles)];
        self.pops += u64::from(held.answer.pops);
        self.ours += held.ours;
        self.theirs += held.theirs;
        Ok(held)
    }

    /// A job that was asked for over new buffers gives the same over the other form of the queue and by the other pass with the next axis upright
    /// and in the other edition of the table; but for the rows, which count the same field along that axis and in that edition.
    fn hold_other(&mut self, job: &Job, by: By, held: &Held, left: &Lent) -> Result<(), String> {
        self.tell(by);
        self.tell_rows(job, held, left);
        self.hold_index(job, by, held, left)?;
        self.hold_standing(job, 1, true, by.other(), held, left)
    }

    /// The index of the names of a job that is done; once in four brought up to date from those of another run too.
    fn hold_index(&mut self, job: &Job, by: By, held: &Held, left: &Lent) -> Result<(), String> {
        if held.answer.number != 0 {
            return Ok(());
        }
        let triangles = topology::triangles(job).len() as u32;
        index::hold_build(triangles, &left.names)?;
        self.indexed += 1;
        if self.indexed % 4 != 1 {
            return Ok(());
        }
        let mut before = Lent::fitting(&job.grid, left.distances.len());
        if port::ask_with_room(&before_repair(job, self.indexed), &mut before, by).number == 0 {
            self.stale += index::hold_update(triangles, &before.names, &left.names)?;
            self.updated += 1;
            self.renamed += before.names.iter().zip(&left.names).filter(|(old, new)| old != new).count() as u64;
        }
        Ok(())
    }

    /// The same with the axis so many further on, and in the other edition or in this one. Where the job is refused, the rows are all zero in both.
    fn hold_standing(&mut self, job: &Job, step: u32, other: bool, by: By, held: &Held, left: &Lent) -> Result<(), String> {
        let upright = Some((job.grid.upright() + step) % 3);
        let edition = Some(if other { 3 - job.edition() } else { job.edition() });
        let job = &Job { grid: Grid { upright, ..job.grid.clone() }, edition, ..job.clone() };
        let left = &Lent { rows: rust::rows(job, &left.field), ..left.clone() };
        let before = Lent::fitting(&job.grid, left.distances.len());
        self.tell_rows(job, held, left);
        self.hold_again(job, job.vertices.as_flattened(), before, u32::MAX, by, held.answer, left)
    }

    fn tell_rows(&mut self, job: &Job, held: &Held, left: &Lent) {
        self.upright[job.grid.upright() as usize] += 1;
        self.editions[job.edition() as usize - 1] += 1;
        if job.edition() == 2 && held.answer.number == 0 {
            for zero in left.field.iter().filter(|&&distance| distance == 0.0) {
                self.zeros[usize::from(zero.is_sign_negative())] += 1;
            }
        }
    }

    /// The job asked for in another way gives the same answer and leaves the same buffers.
    fn hold_again(
        &mut self,
        job: &Job,
        coordinates: &[f32],
        before: Lent,
        limit: u32,
        by: By,
        answer: Answer,
        left: &Lent,
    ) -> Result<(), String> {
        if port::hold_again(job, coordinates, before, limit, by, answer, left)? {
            self.tell(by);
        }
        Ok(())
    }

    /// A job is refused by this number in all four ways, over buffers of right and of wrong lengths for the grid that hold noise, and
    /// they are as they were lent. (Three queue lists of different lengths are no row: there in two ways.)
    fn hold_unchanged(&mut self, job: &Job, number: u32, grid: &Grid, r: &mut Random) -> Result<(), String> {
        let (cells, room) = (grid.cells() as usize, 4_096);
        let lengths = [cells, cells, 3 * cells, grid.layers() as usize, room, room, room];
        for wrong in [None, Some(wrong_length(lengths, grid, r))] {
            let before = noise(lengths, wrong, r).lent;
            for by in By::ALL {
                self.hold_again(job, job.vertices.as_flattened(), before.clone(), u32::MAX, by, refused(number), &before)?;
            }
            self.tell_unchanged(number, wrong.is_some());
        }
        *self.answers.entry(number).or_default() += 1;
        Ok(())
    }

    fn tell_unchanged(&mut self, number: u32, wrong: bool) {
        self.unchanged.entry(number).or_default()[usize::from(wrong)] += 1;
    }

    /// A job whose upright axis is none of the three is refused by 1, over buffers of right and of wrong lengths for the one that it has.
    fn hold_no_axis(&mut self, job: &Job, r: &mut Random) -> Result<(), String> {
        let upright = Some(r.pick(&NO_AXES));
        self.no_axis += 1;
        self.hold_unchanged(&Job { grid: Grid { upright, ..job.grid.clone() }, ..job.clone() }, 1, &job.grid, r)
    }

    /// A job of an edition that there is not is refused by 14, with an index beyond the vertices too, with a vertex out of bounds and as a strip; with an
    /// upright axis that is none, or a grid out of bounds, by 1.
    fn hold_no_edition(&mut self, job: &Job, r: &mut Random) -> Result<(), String> {
        let mut job = Job { edition: Some(r.pick(&table::NO_EDITIONS)), ..job.clone() };
        let grid = job.grid.clone();
        self.no_edition += 1;
        self.hold_unchanged(&job, 14, &grid, r)?;
        if let Some(index) = job.indices.as_mut().and_then(|list| list.first_mut()) {
            *index = job.vertices.len() as u32;
            self.hold_unchanged(&job, 14, &grid, r)?;
        }
        let vertex = r.below(job.vertices.len() as u64) as usize;
        job.vertices[vertex][r.below(3) as usize] = [f32::NAN, 1_048_576.125, f32::NEG_INFINITY][r.below(3) as usize];
        self.hold_unchanged(&job, 14, &grid, r)?;
        job.topology = Topology::Strip;
        self.hold_unchanged(&job, 14, &grid, r)?;
        self.hold_no_axis(&job, r)?;
        job.grid.size[r.below(3) as usize] = [0.0, -1.0, f32::NAN][r.below(3) as usize];
        self.hold_unchanged(&job, 1, &grid, r)
    }

    /// A strip is refused by 13, with an index beyond the vertices too; with a vertex out of bounds by 2, and with a grid, or its upright axis, by 1.
    fn hold_strip(&mut self, strip: &Job, r: &mut Random) -> Result<(), String> {
        self.hold_unchanged(strip, 13, &strip.grid, r)?;
        let mut job = strip.clone();
        if let Some(index) = job.indices.as_mut().and_then(|list| list.first_mut()) {
            *index = job.vertices.len() as u32;
            self.hold_unchanged(&job, 13, &strip.grid, r)?;
        }
        let vertex = r.below(job.vertices.len() as u64) as usize;
        job.vertices[vertex][r.below(3) as usize] = [f32::NAN, 1_048_576.125, f32::NEG_INFINITY][r.below(3) as usize];
        self.hold_unchanged(&job, 2, &strip.grid, r)?;
        self.hold_no_axis(&job, r)?;
        job.grid.size[r.below(3) as usize] = [0.0, -1.0, f32::NAN][r.below(3) as usize];
        self.hold_unchanged(&job, 1, &strip.grid, r)
    }

    fn tell(&mut self, by: By) {
        self.asked[2 * usize::from(by.records) + usize::from(by.quick)] += 1;
    }

    /// The rays that graze, against every ray with every triangle. A refusal has none, and with Normal signs there are no rays.
    fn count_grazed(&mut self, job: &Job, answer: Answer) -> Result<(), String> {
        let rays = answer.number == 0 && job.sign == SignMethod::Raycast;
        let counted = if rays { grazed(job) } else { 0 };
        if answer.grazed != counted {
            return Err(format!("grazed {}, and {counted} were counted", answer.grazed));
        }
        self.counted += 1;
        self.with_grazed += u64::from(counted > 0);
        self.grazed += counted;
        self.most_grazed = self.most_grazed.max(counted);
        Ok(())
    }

    fn print(&self) {
        for (kind, jobs) in &self.kinds {
            println!("{jobs:>7}  {kind}");
        }
        for (number, jobs) in &self.answers {
            println!("{jobs:>7}  answer={number}");
        }
        println!(
            "held to the Rust: {} jobs ({} of them end at a NaN), {} cells, {} triangles, {} pops; \
             the largest {} cells, the most {} triangles",
            self.to_rust, self.nans, self.cells, self.triangles, self.pops, self.most[0], self.most[1]
        );
        println!(
            "rays that graze, counted one by one: {} jobs, {} of them with any, {} in all, the most {}",
            self.counted, self.with_grazed, self.grazed, self.most_grazed
        );
        let [x, y, z] = self.upright;
        println!("rows along x, y and z: {x}, {y} and {z} jobs; with an axis that is none, refused by 1: {}", self.no_axis);
        let ([first, second], [plus, minus]) = (self.editions, self.zeros);
        println!(
            "rows of edition 1 and 2: {first} and {second} jobs, the latter with {plus} cells at +0 and {minus} at -0; \
             of an edition that there is not: {}; once more with plates on layers of centres: {}",
            self.no_edition, self.plates
        );
        println!(
            "names indexed by facet: {} jobs, {} of them brought up to date from other names, with {} cells of another name; wrong indices, \
             refused by 18: {}",
            self.indexed, self.updated, self.renamed, self.stale
        );
        println!("lists of a strip's triangles that were held to what the Rust gives the strip: {}", self.strips);
        for (number, [right, wrong]) in &self.unchanged {
            println!(
                "refused by {number}, with every buffer as it was lent: {right} over buffers of right lengths, {wrong} of wrong ones"
            );
        }
        let [plain, quick, records_plain, records_quick] = self.asked;
        println!(
            "with the same answer and buffers: over three lists {plain} by the plain pass and {quick} by the quick, \
             over records {records_plain} and {records_quick}"
        );
        println!("seconds: {:.1} the library, {:.1} the Rust", self.ours, self.theirs);
        println!("{} jobs, {} differences", self.jobs, self.differences);
    }
}

fn main() {
    let args: Vec<String> = std::env::args().skip(1).collect();
    let number = |i: usize| args.get(i).and_then(|a| a.parse::<u64>().ok());
    let (Some(jobs), Some(seed)) = (number(0), number(1)) else {
        eprintln!("usage: compare-large N SEED [[normal-](small|middle|large|bounds) [FIRST]]");
        std::process::exit(2);
    };
    let word = args.get(2).map_or("large", String::as_str);
    let (sign, set) = match word.strip_prefix("normal-") {
        Some(set) => (SignMethod::Normal, set),
        None => (SignMethod::Raycast, word),
    };
    let first = number(3).unwrap_or(0);
    mesh_oracle::begin();
    let mut seen = Seen::default();
    if set == "bounds" {
        at_bounds(sign, jobs > 0, &mut seen);
    } else {
        for index in first..first + jobs {
            // Two numbers of one generator seed another: seeds and jobs do not run into each other.
            let start = Random::new(seed, 0).next().wrapping_add(index);
            let mut r = Random::new(Random::new(start, 0).next(), index);
            // The axis and the edition have random numbers of their own, so that the meshes stay as they were without them.
            let by_chance = |start: u64| Random::new(Random::new(start, 0).next(), index);
            let mut said = Said { standing: by_chance(!start), edition: by_chance(!start.rotate_left(32)) };
            let (kind, verdict) = match set {
                "small" => small(index, sign, &mut said, &mut r, &mut seen),
                "middle" => large(index, sign, sizes_to_64, true, &mut said, &mut r, &mut seen),
                "large" => large(index, sign, sizes_to_100, index % 2 == 0, &mut said, &mut r, &mut seen),
                _ => panic!("no such set: {word}"),
            };
            seen.jobs += 1;
            if seen.jobs % 32 == 0 && set != "small" {
                eprintln!("{} jobs, {} differences", seen.jobs, seen.differences);
            }
            *seen.kinds.entry(kind.clone()).or_default() += 1;
            if let Err(words) = verdict {
                seen.differences += 1;
                if seen.differences <= 20 {
                    println!("job {index} ({kind}), seed {seed}: {words}");
                    println!("    again: tools/compare-large 1 {seed} {word} {index}");
                }
            }
        }
    }
    seen.print();
    std::process::exit(i32::from(seen.differences > 0));
}

/// Another job with as many triangles on the same grid: with a corner of one of them moved halfway to the middle of the grid's box, from where no
/// triangle gets off the grid; or, in turn, with signs by the other method.
fn before_repair(job: &Job, turn: u64) -> Job {
    let mut before = job.clone();
    let triangles = topology::triangles(job);
    if turn % 8 == 1 && !triangles.is_empty() {
        let [corner, ..] = triangles[turn as usize % triangles.len()];
        let (low, high) = (job.grid.box_minimum(), job.grid.box_maximum());
        for axis in AXES {
            let at = &mut before.vertices[corner as usize][axis];
            *at = *at / 2.0 + (low[axis] + high[axis]) / 4.0;
        }
        return before;
    }
    before.sign = match job.sign {
        SignMethod::Raycast => SignMethod::Normal,
        SignMethod::Normal => SignMethod::Raycast,
    };
    before
}

/// Random numbers for what a job's text may say.
struct Said {
    standing: Random,
    edition: Random,
}

/// How many rays and triangles, taken together, graze: a ray from each starting cell of the three faces, along its axis.
fn grazed(job: &Job) -> u64 {
    let corners: Vec<_> = topology::triangles(job).iter().map(|t| t.map(|v| job.vertices[v as usize])).collect();
    let mut count = 0;
    for axis in AXES {
        let starts = (0..job.grid.cells()).map(|index| job.grid.coordinates(index)).filter(|cell| cell[axis] == 0);
        for origin in starts.map(|cell| job.grid.centre(cell)) {
            count += corners.iter().filter(|c| ray(origin, **c, axis) == Reply::Grazed).count() as u64;
        }
    }
    count
}

/// The way in which a job is held to the Rust. By pairs, since the crossings of every second job alone may be held.
fn in_turn(index: u64) -> By {
    By::ALL[(index / 2 % 4) as usize]
}

// Jobs as the job program may be given.

/// One job over buffers that hold noise, some of them of a wrong length: answer and buffers are the model's. Then the
/// same with room and pops lifted, against the Rust.
fn small(index: u64, sign: SignMethod, said: &mut Said, r: &mut Random, seen: &mut Seen) -> (String, Result<(), String>) {
    let all = match sign {
        SignMethod::Raycast => [None, Some("old"), Some("long"), Some("upright"), Some("table")].map(kinds::of_set).concat(),
        SignMethod::Normal => ["normal", "upright", "table"].map(|set| kinds::of_set(Some(set))).concat(),
    };
    let turns = all.len() as u64;
    let kind = match index % 100 {
        // Those that came after the sets.
        96 => "inside-at-max",
        97 => "inside-grazing-zeros",
        // Beyond the program's limits, for the two bounds that they keep out of sight.
        98 => "large-too-many-triangles",
        99 => "large-too-many-vertices",
        _ => all[(index % turns) as usize],
    };
    let mut of_kind = Random::new(r.next(), index / turns);
    let made = kinds::make(kind, &mut of_kind).expect("a kind of the table");
    let read = text::read(&made).filter(|job| text::within_limits(job) || bounds::check(job).is_err());
    let Some(mut job) = read.map(|job| Job { sign, ..job }) else {
        return ("unreadable, or beyond the program's limits".to_string(), Ok(()));
    };
    // What its text says, or else by chance; once in thirty no axis at all, and no edition.
    let Said { standing, edition } = said;
    if standing.once_in(30) {
        job.grid.upright = Some(standing.pick(&NO_AXES));
        seen.no_axis += 1;
    } else if job.grid.upright.is_none() {
        job.grid.upright = Some(standing.below(3) as u32);
    }
    if edition.once_in(30) {
        job.edition = Some(edition.pick(&table::NO_EDITIONS));
    } else if job.edition.is_none() {
        job.edition = Some(edition.between(1, 2));
    }
    seen.no_edition += u64::from(job.edition() == 0 || job.edition() > 2);
    let verdict = hold_to_model(&job, r, seen).and_then(|number| {
        if matches!(number, 0 | 6 | 7 | 8) || number == 13 && bounds::check(&as_list(&job)).is_ok() {
            let (by, mut lent) = (in_turn(index), Lent::fitting(&job.grid, 4_096));
            let held = seen.hold(&job, &mut lent, by, true)?;
            seen.hold_standing(&as_list(&job), 0, true, by, &held, &lent)?;
        }
        Ok(())
    });
    (kind.to_string(), verdict)
}

fn hold_to_model(job: &Job, r: &mut Random, seen: &mut Seen) -> Result<u32, String> {
    let cells = bounds::cells(job.grid.count).min(512) as usize;
    let room = job.queue.min(2_048) as usize;
    // An axis that is none is refused by 1, whatever is lent.
    let layers = job.grid.count[job.grid.upright().min(2) as usize].min(512) as usize;
    let lengths = [cells, cells, 3 * cells, layers, room, room, room];
    let wrong = r.once_in(10).then(|| wrong_length(lengths, &job.grid, r));
    let uneven = r.once_in(40) && !job.vertices.is_empty();
    let before = noise(lengths, wrong, r);
    let owed = owed(job, uneven, before.lengths != lengths);
    let mut lent = before.lent.clone();
    let kept = before.lent.clone();
    let coordinates = job.vertices.as_flattened();
    let coordinates = &coordinates[..coordinates.len() - usize::from(uneven)];
    let [first, others @ ..] = By::ALL;
    let answer = port::ask_with(job, coordinates, &mut lent, job.pops, first);
    *seen.answers.entry(answer.number).or_default() += 1;
    let (model, left) = match owed {
        Ok(done) => {
            let tally = Answer { number: 0, pops: done.pops, peak: done.peak as usize, grazed: done.grazed };
            (tally, filled(done, kept))
        }
        Err(number) if number < 6 || number > 9 => (refused(number), kept),
        Err(number) => (refused(number), cleared(kept)),
    };
    let number = model.number;
    if answer != model {
        return Err(format!("{answer:?}; the model gives {model:?}"));
    }
    if lent.bits() != left.bits() {
        return Err(format!("answer {number}, and a buffer is not as the model leaves it"));
    }
    if number > 9 {
        seen.tell_unchanged(number, before.lengths != lengths);
    }
    seen.tell(first);
    for by in others {
        seen.hold_again(job, coordinates, before.lent.clone(), job.pops, by, answer, &left)?;
    }
    // Where coordinates were left out, or a buffer has another length, nothing was said of the job itself.
    Ok(if uneven || before.lengths != lengths { 5 } else { number })
}

fn refused(number: u32) -> Answer {
    Answer { number, ..Answer::default() }
}

/// The job is accepted, by the model: if not, it is this tool's mistake, and the library's answer says nothing.
fn accepted(job: &Job) -> Result<(), String> {
    bounds::check(job).map_err(|number| format!("the model refuses the job by {number}"))
}

/// Document 01's answer. A job's text lends no buffers and has whole vertices: those two are added here.
fn owed(job: &Job, uneven: bool, wrong: bool) -> Result<Done, u32> {
    let checked = bounds::check(job);
    if uneven && !matches!(checked, Err(1 | 14)) {
        return Err(2);
    }
    checked?;
    if wrong {
        return Err(5);
    }
    model::run::run(job)
}

struct Noise {
    lent: Lent,
    lengths: [usize; 7],
}

/// One of the buffers, and another length for it: one more or one less, or for the rows the count of another axis, where that is another.
fn wrong_length(lengths: [usize; 7], grid: &Grid, r: &mut Random) -> (usize, usize) {
    let (which, more) = (r.below(7) as usize, r.once_in(2));
    let of_an_axis = grid.count[r.below(3) as usize].min(1_024) as usize;
    match lengths[which] {
        length if which == ROWS && of_an_axis != length => (which, of_an_axis),
        length if more => (which, length + 1),
        length => (which, length.saturating_sub(1)),
    }
}

/// Buffers of these lengths, one of them perhaps of another, that hold anything.
fn noise(mut lengths: [usize; 7], wrong: Option<(usize, usize)>, r: &mut Random) -> Noise {
    if let Some((which, length)) = wrong {
        lengths[which] = length;
    }
    let mut lent = Lent::default();
    lent.field = (0..lengths[0]).map(|_| f32::from_bits(r.next() as u32)).collect();
    for (list, length) in lent.numbers().into_iter().zip(&lengths[1..]) {
        *list = (0..*length).map(|_| r.next() as u32).collect();
    }
    Noise { lent, lengths }
}

fn cleared(mut lent: Lent) -> Lent {
    lent.field.fill(f32::MAX);
    lent.numbers().into_iter().for_each(|list| list.fill(0));
    lent.names.fill(model::NONE);
    lent
}

fn filled(done: Done, lent: Lent) -> Lent {
    let Done { field, names, crossings, rows, .. } = done;
    Lent { field, names, crossings: crossings.as_flattened().to_vec(), rows, ..cleared(lent) }
}

// Large jobs.

fn sizes_to_64(index: u64, r: &mut Random) -> ([u32; 3], u32) {
    match index % 20 {
        0 => ([64; 3], r.between(2_000, 6_000)),
        1..=5 => ([0; 3].map(|_| r.between(40, 64)), r.between(1_000, 6_000)),
        _ => ([0; 3].map(|_| r.between(8, 48)), r.between(1_000, 5_000)),
    }
}

/// In 96 jobs: one of the largest and two near it, nine of long or flat grids, six to 90 cells on an axis, eighteen to
/// 60, and sixty to 36. The numbers of triangles go with them.
fn sizes_to_100(index: u64, r: &mut Random) -> ([u32; 3], u32) {
    match index % 32 {
        0 if index % 96 == 0 => ([100; 3], 20_000),
        0 => ([0; 3].map(|_| r.between(80, 100)), r.between(4_000, 8_000)),
        1 => ([r.between(200, 1_024), r.between(4, 12), r.between(4, 12)], r.between(500, 2_000)),
        2 => ([r.between(4, 12), r.between(200, 1_024), r.between(4, 12)], r.between(500, 2_000)),
        3 => ([r.between(4, 12), r.between(4, 12), r.between(200, 1_024)], r.between(500, 2_000)),
        4..=5 => ([0; 3].map(|_| r.between(64, 90)), r.between(2_000, 8_000)),
        6..=11 => ([0; 3].map(|_| r.between(36, 60)), r.between(1_000, 5_000)),
        _ => ([0; 3].map(|_| r.between(12, 36)), r.between(300, 4_000)),
    }
}

fn large(
    index: u64,
    sign: SignMethod,
    sizes: fn(u64, &mut Random) -> ([u32; 3], u32),
    with_crossings: bool,
    said: &mut Said,
    r: &mut Random,
    seen: &mut Seen,
) -> (String, Result<(), String>) {
    let (count, triangles) = sizes(index, r);
    // The kinds turn at another pace than the sizes, so that each meets each.
    let kinds = meshes::kinds(sign);
    let kind = kinds[((index + index / 32) % kinds.len() as u64) as usize];
    let grid = Grid { upright: Some(said.standing.below(3) as u32), ..meshes::grid(count, r) };
    let room = 2 * grid.cells() as usize + 4_096;
    let mut lent = Lent::fitting(&grid, room);
    let job = Job { edition: Some(said.edition.between(1, 2)), ..meshes::make(kind, sign, grid, triangles, r) };
    let mut verdict = || {
        accepted(&as_list(&job))?;
        let held = seen.hold(&job, &mut lent, in_turn(index), with_crossings)?;
        *seen.answers.entry(held.answer.number).or_default() += 1;
        let strip = job.topology == Topology::Strip;
        if strip {
            seen.hold_strip(&job, r)?;
        }
        if index % 12 == 5 {
            seen.hold_no_axis(&job, r)?;
        }
        if index % 12 == 8 {
            seen.hold_no_edition(&job, r)?;
        }
        if index % 6 == 1 {
            let plates = meshes::with_plates(&job, r);
            accepted(&plates)?;
            seen.hold(&plates, &mut Lent::fitting(&plates.grid, room), in_turn(index), with_crossings)?;
            seen.plates += 1;
        }
        if index % 12 == 11 {
            let ladder = meshes::with_ladder(&job, r);
            seen.hold_unchanged(&as_list(&ladder), 10, &job.grid, r)?;
            if strip {
                seen.hold_unchanged(&ladder, 13, &job.grid, r)?;
            }
        }
        Ok(())
    };
    (kind.0.to_string(), verdict())
}

// One job at each bound.

fn at_bounds(sign: SignMethod, with_rust: bool, seen: &mut Seen) {
    // Soups with as many corners as there may be vertices; with 131,072 triangles these are 393,216.
    // The last has facets of no extent, every one of which every ray grazes: 1,050,624 rays and 4,096 facets pass 32 bits. With Normal signs
    // there are no rays. Each has all three axes upright, this one first: 1,024 rows along x, along y and along z, and one.
    let jobs: [([u32; 3], u32, u32, f64); 6] = [
        ([1_024, 1_024, 1], 0, 2_000, 1.0),
        ([1, 1_024, 1_024], 2, 2_000, 1.0),
        ([102, 102, 100], 1, 20_000, 1.0),
        ([32, 32, 32], 0, 131_072, 1.0),
        ([102, 102, 100], 2, 131_072, 1.0),
        ([1_024, 1_024, 1], 1, 4_096, 0.0),
    ];
    println!("counts | triangles | answer | pops | peak | grazed | seconds, the library | the Rust | lent MB, room for the peak");
    for (count, upright, triangles, reach) in jobs {
        let mut r = Random::new(1, 0);
        let grid = Grid { upright: Some(upright), ..meshes::grid(count, &mut r) };
        let mut lent = Lent::fitting(&grid, 2 * grid.cells() as usize);
        let mesh = meshes::soup_of(&grid, triangles, reach, &mut r);
        let job = Job { sign, ..meshes::plain(grid, mesh) };
        seen.jobs += 1;
        let by = By { records: false, quick: true };
        let verdict = hold_at_bound(&job, &mut lent, by, with_rust, seen);
        let [x, y, z] = count.map(u64::from);
        let rays = if sign == SignMethod::Raycast { y * z + x * z + x * y } else { 0 };
        let points = rays * u64::from(triangles);
        let verdict = verdict.and_then(|held| match held.answer.grazed {
            grazed if reach == 0.0 && grazed != points => Err(format!("grazed {grazed}, and {points} do")),
            _ => Ok(held),
        });
        tell_at_bound(&job, &lent, verdict, seen);
    }
    full_row(sign, with_rust, seen);
    last_off_grid(sign, with_rust, seen);
    strips_at_bounds(sign, with_rust, seen);
}

/// As many cells as there may be in one layer, all of them inside: in half cells its row is the most that a row can be.
fn full_row(sign: SignMethod, with_rust: bool, seen: &mut Seen) {
    let grid = Grid { first: [0.5; 3], size: [1.0; 3], count: [1_024, 1_024, 1], upright: Some(2) };
    let mesh = shapes::cuboid([-0.43, -0.41, -0.37], [1_023.39, 1_023.42, 0.33]);
    let mut lent = Lent::fitting(&grid, 2 * grid.cells() as usize);
    let job = Job { sign, edition: Some(2), ..meshes::plain(grid, mesh) };
    seen.jobs += 1;
    let verdict = hold_at_bound(&job, &mut lent, By { records: false, quick: true }, with_rust, seen);
    let verdict = verdict.and_then(|held| match lent.rows[..] {
        [2_097_152] => Ok(held),
        _ => Err(format!("rows {:?}, and all cells are inside", lent.rows)),
    });
    tell_at_bound(&job, &lent, verdict, seen);
}

fn hold_at_bound(original: &Job, lent: &mut Lent, by: By, with_rust: bool, seen: &mut Seen) -> Result<Held, String> {
    let job = &as_list(original);
    accepted(job)?;
    if with_rust {
        let held = seen.hold(original, lent, by, false)?;
        seen.hold_standing(job, 2, false, by, &held, lent)?;
        seen.hold_standing(job, 0, true, by, &held, lent)?;
        return Ok(held);
    }
    let held = rust::alone(job, lent, by);
    if job.sign == SignMethod::Normal && lent.crossings.iter().any(|&n| n != 0) {
        return Err("crossings with Normal signs".to_string());
    }
    if lent.rows != rust::rows(job, &lent.field) {
        return Err(format!("rows that do not count the field along axis {} in edition {}", job.grid.upright(), job.edition()));
    }
    seen.hold_other(job, by, &held, lent)?;
    seen.hold_standing(job, 2, false, by, &held, lent)?;
    seen.hold_standing(job, 0, true, by, &held, lent)?;
    Ok(held)
}

fn tell_at_bound(job: &Job, lent: &Lent, verdict: Result<Held, String>, seen: &mut Seen) {
    let (count, triangles) = (job.grid.count, topology::triangles(job).len());
    match verdict {
        Ok(held) => {
            let Answer { number, pops, peak, grazed } = held.answer;
            *seen.answers.entry(number).or_default() += 1;
            let words = job.vertices.len() * 3
                + job.indices.as_ref().map_or(0, |list| list.len())
                + lent.field.len() * 5
                + lent.rows.len()
                + 3 * peak;
            println!(
                "{count:?} | {triangles} | {number} | {pops} | {peak} | {grazed} | {:.2} | {:.2} | {:.1}",
                held.ours,
                held.theirs,
                (4 * words) as f64 / 1e6
            );
        }
        Err(words) => {
            seen.differences += 1;
            println!("{count:?} | {triangles} | {words}");
        }
    }
}

/// As many triangles as there may be, and the last of them touches a side of the box with all corners: the job is done. Then it lies
/// one float out, the others where they were: 10. On each side in turn, over few cells.
fn last_off_grid(sign: SignMethod, with_rust: bool, seen: &mut Seen) {
    for (axis, high) in AXES.into_iter().flat_map(|axis| [(axis, false), (axis, true)]) {
        let mut r = Random::new(2 + axis as u64, u64::from(high));
        let grid = Grid { upright: Some(axis as u32), ..meshes::grid([6, 5, 4], &mut r) };
        let mesh = meshes::soup_of(&grid, 131_072, 0.3, &mut r);
        let (low, up) = (grid.box_minimum()[axis], grid.box_maximum()[axis]);
        let (side, out) = if high { (up, inside::next_up(up)) } else { (low, -inside::next_up(-low)) };
        let mut lent = Lent::fitting(&grid, 4_096);
        let mut job = Job { sign, ..meshes::plain(grid, mesh) };
        // The corners of each triangle are vertices of its own, in order.
        let last = job.vertices.len() - 3;
        job.vertices[last..].iter_mut().for_each(|v| v[axis] = side);
        seen.jobs += 1;
        let verdict = hold_at_bound(&job, &mut lent, By { records: false, quick: true }, with_rust, seen);
        tell_at_bound(&job, &lent, verdict, seen);
        job.vertices[last..].iter_mut().for_each(|v| v[axis] = out);
        tell_refused(&job, 10, "131072, the last one float off", seen, &mut r);
    }
}

fn tell_refused(job: &Job, number: u32, what: &str, seen: &mut Seen, r: &mut Random) {
    seen.jobs += 1;
    let words = match seen.hold_unchanged(job, number, &job.grid, r) {
        Ok(()) => number.to_string(),
        Err(words) => {
            seen.differences += 1;
            words
        }
    };
    println!("{:?} | {what} | {words}", job.grid.count);
}

/// A strip of as many triangles as there may be: its list is done, and it is refused by 13. So are a strip of one more, which as a list
/// would be refused by 3, one with an index beyond the vertices, and one of as many vertices as there may be and no indices; with one
/// vertex more it is 2. Of an edition that there is not each of these is refused by 14.
fn strips_at_bounds(sign: SignMethod, with_rust: bool, seen: &mut Seen) {
    let mut r = Random::new(5, 0);
    let grid = meshes::grid([6, 5, 4], &mut r);
    let mut lent = Lent::fitting(&grid, 4_096);
    let mut job = Job { sign, ..meshes::walk(grid, 131_072, &mut r) };
    seen.jobs += 1;
    let verdict = hold_at_bound(&job, &mut lent, By { records: true, quick: true }, with_rust, seen);
    tell_at_bound(&as_list(&job), &lent, verdict, seen);
    tell_refused(&job, 13, "131072 of a strip", seen, &mut r);
    let [first, second] = [job.vertices[0], job.vertices[1]];
    let corners: Vec<u32> = (0..job.vertices.len() as u32).chain([0]).collect();
    job.indices = Some(corners);
    tell_refused(&as_list(&job), 3, "131073", seen, &mut r);
    tell_refused(&Job { edition: Some(3), ..as_list(&job) }, 14, "131073, of an edition that there is not", seen, &mut r);
    tell_refused(&job, 13, "131073 of a strip", seen, &mut r);
    tell_refused(&Job { edition: Some(0), ..job.clone() }, 14, "131073 of a strip, of an edition that there is not", seen, &mut r);
    job.indices.as_mut().expect("indices")[7] = u32::MAX;
    tell_refused(&job, 13, "131073 of a strip, an index beyond the vertices", seen, &mut r);
    job.indices = None;
    job.vertices.resize(393_216, first);
    tell_refused(&job, 13, "393214 of a strip without indices", seen, &mut r);
    job.vertices.push(second);
    tell_refused(&job, 2, "393215 of a strip without indices", seen, &mut r);
    job.edition = Some(u32::MAX);
    tell_refused(&job, 14, "393215 of a strip without indices, of an edition that there is not", seen, &mut r);
}
