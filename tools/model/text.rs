//! "One job, one listing". Each job, with what it says and what it leaves unsaid, has exactly one text, the one that `write` gives; a text is
//! readable if it is that of some job.

use crate::geometry::Point;
use crate::grid::Grid;
use crate::topology::Topology;
use crate::{answer, bounds, Job, SignMethod};
use std::fmt::Write;

/// The job program: the listing for a text. `large` lifts its own limits.
pub fn listing(text: &[u8], large: bool, crossings: bool) -> String {
    let job = match read(text) {
        Some(job) if large || within_limits(&job) => job,
        _ => return "answer=9\n".to_string(),
    };
    let done = match answer(&job) {
        Ok(done) => done,
        Err(number) => return format!("answer={number}\n"),
    };
    let mut out = format!("answer=0\npops={}\npeak={}\ngrazed={}\n", done.pops, done.peak, done.grazed);
    for (index, (distance, name)) in done.field.iter().zip(&done.names).enumerate() {
        writeln!(out, "cell={index} {} {name}", bits(*distance)).unwrap();
    }
    for (layer, count) in done.rows.iter().enumerate() {
        writeln!(out, "row={layer} {count}").unwrap();
    }
    // Not part of the listing: the crossing counts, when asked for.
    if crossings {
        for (index, [x, y, z]) in done.crossings.iter().enumerate() {
            writeln!(out, "crossing={index} {x} {y} {z}").unwrap();
        }
    }
    out
}

/// Its own limits: 256 vertices, 512 cells, 2,048 entries, and of indices 2,298 for a list and 768 for a strip (document 02, §7).
pub fn within_limits(job: &Job) -> bool {
    let most = match job.topology {
        Topology::List => 2_298,
        Topology::Strip => 768,
    };
    within(job, most)
}

/// The same with so many indices at most.
pub fn within(job: &Job, most_indices: usize) -> bool {
    job.vertices.len() <= 256
        && job.indices.as_ref().is_none_or(|indices| indices.len() <= most_indices)
        && bounds::cells(job.grid.count) <= 512
        && job.queue <= 2_048
}

/// What the line `upright=` says (document 02, §9), in the order of the axes' numbers.
const AXIS_NAMES: [&str; 3] = ["x", "y", "z"];

/// Floats are eight lower-case hex digits of their bits.
pub fn bits(number: f32) -> String {
    format!("{:08x}", number.to_bits())
}

/// The text of a job.
pub fn write(job: &Job) -> String {
    let point = |p: Point| p.map(bits).join(" ");
    let mut out = format!("count={}\n", job.grid.count.map(|n| n.to_string()).join(" "));
    writeln!(out, "first={}", point(job.grid.first)).unwrap();
    writeln!(out, "size={}", point(job.grid.size)).unwrap();
    // What is said of the upright axis, or nothing: `upright=z` and no line are two texts of the same meaning.
    if let Some(axis) = job.grid.upright {
        writeln!(out, "upright={}", AXIS_NAMES[axis as usize]).unwrap();
    }
    writeln!(out, "topology={}", if job.topology == Topology::List { "list" } else { "strip" }).unwrap();
    // Document 02, §8: without the line it is Raycast, and there is no other spelling of either.
    if job.sign == SignMethod::Normal {
        writeln!(out, "sign=normal").unwrap();
    }
    writeln!(out, "vertices={}", job.vertices.len()).unwrap();
    for vertex in &job.vertices {
        writeln!(out, "v={}", point(*vertex)).unwrap();
    }
    match &job.indices {
        None => writeln!(out, "indices=none").unwrap(),
        Some(indices) => {
            writeln!(out, "indices={}", indices.len()).unwrap();
            for index in indices {
                writeln!(out, "i={index}").unwrap();
            }
        }
    }
    write!(out, "queue={}\npops={}\n", job.queue, job.pops).unwrap();
    // Document 02, §11: what is said of the edition, any number, or nothing: `table=1` and no line are two texts of the same meaning.
    if let Some(edition) = job.edition {
        writeln!(out, "table={edition}").unwrap();
    }
    out
}

/// The job of a text. It is read with a light hand, and the job's own text must be this one, byte for byte.
pub fn read(text: &[u8]) -> Option<Job> {
    let job = understand(std::str::from_utf8(text).ok()?)?;
    (write(&job).as_bytes() == text).then_some(job)
}

fn understand(text: &str) -> Option<Job> {
    // The three lines that need not be there are looked for anywhere.
    let (signs, others): (Vec<&str>, Vec<&str>) = text.lines().partition(|line| line.starts_with("sign="));
    let sign = if signs.is_empty() { SignMethod::Raycast } else { SignMethod::Normal };
    let (uprights, others): (Vec<&str>, Vec<&str>) = others.into_iter().partition(|line| line.starts_with("upright="));
    let upright = match uprights.first() {
        None => None,
        Some(line) => Some(AXIS_NAMES.iter().position(|name| line.ends_with(name))? as u32),
    };
    let (tables, others): (Vec<&str>, Vec<&str>) = others.into_iter().partition(|line| line.starts_with("table="));
    let edition = match tables.first() {
        None => None,
        Some(line) => Some(line.split_once('=')?.1.parse().ok()?),
    };
    let mut lines = others.into_iter();
    let mut value = || lines.next()?.split_once('=').map(|(_, value)| value);
    let count = three(value()?, |word| word.parse().ok())?;
    let first = three(value()?, float)?;
    let size = three(value()?, float)?;
    let topology = if value()? == "strip" { Topology::Strip } else { Topology::List };
    let mut vertices = Vec::new();
    for _ in 0..value()?.parse::<u32>().ok()? {
        vertices.push(three(value()?, float)?);
    }
    let indices = match value()? {
        "none" => None,
        number => {
            let mut indices = Vec::new();
            for _ in 0..number.parse::<u32>().ok()? {
                indices.push(value()?.parse().ok()?);
            }
            Some(indices)
        }
    };
    let queue = value()?.parse().ok()?;
    let pops = value()?.parse().ok()?;
    Some(Job { grid: Grid { first, size, count, upright }, topology, sign, vertices, indices, queue, pops, edition })
}

fn three<T>(value: &str, one: impl Fn(&str) -> Option<T>) -> Option<[T; 3]> {
    let words: Vec<T> = value.split(' ').map(one).collect::<Option<_>>()?;
    words.try_into().ok()
}

fn float(word: &str) -> Option<f32> {
    u32::from_str_radix(word, 16).ok().map(f32::from_bits)
}
