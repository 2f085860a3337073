//! The Rust on a job, and the port held to it: the unmodified one, and for Normal signs the one with the queue's order of document 02, §8, put in.

use crate::port::{ask_with_room, Answer, By, Lent};
use mesh_oracle::Sign;
use model::geometry::{distance, point_triangle_signed_distance};
use model::grid::Grid;
use model::topology::{triangles, Topology};
use model::{Job, SignMethod, NONE};
use web_time::Instant;

fn lent(job: &Job) -> mesh_oracle::Lent<'_> {
    let sign = match job.sign {
        SignMethod::Raycast => Sign::Raycast,
        SignMethod::Normal => Sign::Normal,
    };
    let (strip, indices) = (job.topology == Topology::Strip, job.indices.as_deref());
    let Grid { first, size, count, .. } = job.grid;
    let (upright, edition) = (job.grid.upright(), job.edition());
    mesh_oracle::Lent { count, first, size, upright, strip, sign, vertices: &job.vertices, indices, edition }
}

/// The rows that are counted off a field along the job's upright axis, in its edition of the table.
pub fn rows(job: &Job, field: &[f32]) -> Vec<u32> {
    mesh_oracle::rows(lent(job), field).expect("x, y or z, and edition 1 or 2")
}

/// The field, the steps and the times of seeding, spreading and crossings, or the words of the panic.
pub fn run(job: &Job) -> Result<mesh_oracle::Answer, String> {
    mesh_oracle::run(lent(job))
}

/// The crossing counts. With Normal signs the Rust has none, and zeros are owed.
fn crossings(job: &Job) -> Result<Vec<[u32; 3]>, String> {
    match job.sign {
        SignMethod::Raycast => mesh_oracle::crossings(lent(job)),
        SignMethod::Normal => Ok(vec![[0; 3]; job.grid.cells() as usize]),
    }
}

/// What was compared, and how many seconds of the processor's time the two took.
pub struct Held {
    pub answer: Answer,
    pub ours: f64,
    pub theirs: f64,
}

/// The job with no bound on room and pops, the port's alone.
pub fn alone(job: &Job, lent: &mut Lent, by: By) -> Held {
    let begin = Instant::now();
    let answer = ask_with_room(job, lent, by);
    Held { answer, ours: begin.elapsed().as_secs_f64(), theirs: 0.0 }
}

/// The job with no bound on room and pops, the port's against the Rust's: every cell's bits, the rows that the oracle counts off the Rust's
/// field along the upright axis in the job's edition, the pops and, if asked for, the crossing counts, which the Rust works out again for it; with
/// Normal signs in any case. What the Rust has no word for is held to the field: the names and the queue. The Rust is given the original: the job itself, or
/// the strip whose triangles the job lists.
pub fn hold(job: &Job, original: &Job, lent: &mut Lent, by: By, with_crossings: bool) -> Result<Held, String> {
    let mut held = alone(job, lent, by);
    let answer = held.answer;
    let begin = Instant::now();
    let rust = run(original);
    held.theirs = begin.elapsed().as_secs_f64();
    let rust = match (answer.number, rust) {
        (0, Ok(rust)) => rust,
        (6, Err(words)) if words.contains("NaN") => return Ok(held),
        (number, Ok(_)) => return Err(format!("answer {number}, and the Rust runs through")),
        (number, Err(words)) => return Err(format!("answer {number}, and the Rust stops: {words}")),
    };
    if answer.pops != rust.steps {
        return Err(format!("pops {}, and the Rust takes {} steps", answer.pops, rust.steps));
    }
    for (cell, (ours, theirs)) in lent.field.iter().zip(&rust.field).enumerate() {
        if ours.to_bits() != theirs.to_bits() {
            return Err(format!("cell {cell}: {:08x}, and the Rust's is {:08x}", ours.to_bits(), theirs.to_bits()));
        }
    }
    if lent.rows != rows(job, &rust.field) {
        return Err(format!("rows that do not count the Rust's field along axis {} in edition {}", job.grid.upright(), job.edition()));
    }
    if with_crossings || job.sign == SignMethod::Normal {
        let counts = crossings(original)?;
        if let Some(at) = (0..lent.crossings.len()).find(|&i| lent.crossings[i] != counts.as_flattened()[i]) {
            let (ours, theirs) = (lent.crossings[at], counts.as_flattened()[at]);
            return Err(format!("crossing {} of cell {}: {ours}, and the Rust's is {theirs}", at % 3, at / 3));
        }
    }
    hold_to_field(job, lent)?;
    Ok(held)
}

/// Each name's distance is the field's magnitude, or with Normal signs its signed distance is the field's value; and the queue is zero.
fn hold_to_field(job: &Job, lent: &Lent) -> Result<(), String> {
    let all = triangles(job);
    for (cell, (&value, &name)) in lent.field.iter().zip(&lent.names).enumerate() {
        let at = job.grid.coordinates(cell as u32);
        let owed = match name {
            NONE => f32::MAX,
            name => {
                let triangle = all.get(name as usize).ok_or_else(|| format!("cell {cell} names {name}"))?;
                let (centre, corners) = (job.grid.centre(at), triangle.map(|v| job.vertices[v as usize]));
                match job.sign {
                    SignMethod::Raycast => distance(centre, corners),
                    SignMethod::Normal => point_triangle_signed_distance(centre, corners),
                }
            }
        };
        let held = if job.sign == SignMethod::Raycast { value.abs() } else { value };
        if owed.to_bits() != held.to_bits() {
            return Err(format!("cell {cell} names {name}, whose distance is {owed}, and holds {value}"));
        }
    }
    if [&lent.distances, &lent.cells, &lent.triangles].iter().any(|list| list.iter().any(|&x| x != 0)) {
        return Err("a queue that is not zero".to_string());
    }
    Ok(())
}
