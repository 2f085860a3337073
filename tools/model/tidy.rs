//! Document 02, §10: the tidier. It merges vertices of identical bits into the first of them, drops triangles with two equal vertex numbers and
//! later ones with the same three numbers in any order, and squeezes out vertices that no kept triangle uses. Here each vertex is held to every
//! one before it, and each triangle to every one before it, as the words say.

use crate::geometry::Point;
use crate::{bounds, text, Job, Refusal};

/// What is left in the lent outputs, and both kept counts.
pub struct Tidied {
    /// As many coordinates as were given, and three indices a triangle: what is kept in front, and zeros behind it.
    pub coordinates: Vec<f32>,
    pub indices: Vec<u32>,
    /// Of each vertex its first, by the numbers that were given.
    pub firsts: Vec<u32>,
    /// Of each triangle 0 if it is kept, or the cause to go.
    pub causes: Vec<u32>,
    pub vertices: usize,
    pub triangles: usize,
}

/// The mesh of a job, tidied. It is checked before: 2, 13, 3, 4, and nothing of the grid, nor of the table's edition. Lent lengths are no matter of
/// a job (5).
pub fn tidy(job: &Job) -> Result<Tidied, Refusal> {
    let triangles = bounds::mesh(job)?;
    let firsts: Vec<u32> = (0..job.vertices.len()).map(|v| first(&job.vertices, v) as u32).collect();
    let merged: Vec<[u32; 3]> = triangles.iter().map(|t| t.map(|v| firsts[v as usize])).collect();
    let causes: Vec<u32> = (0..merged.len()).map(|k| cause(&merged, k)).collect();
    let kept: Vec<[u32; 3]> = (0..merged.len()).filter(|&k| causes[k] == 0).map(|k| merged[k]).collect();
    let used: Vec<u32> = (0..firsts.len() as u32).filter(|v| kept.iter().any(|t| t.contains(v))).collect();
    let number = |v: u32| used.iter().position(|&u| u == v).expect("a kept triangle uses it") as u32;
    let mut coordinates: Vec<f32> = used.iter().flat_map(|&v| job.vertices[v as usize]).collect();
    let mut indices: Vec<u32> = kept.iter().flatten().map(|&v| number(v)).collect();
    coordinates.resize(3 * firsts.len(), 0.0);
    indices.resize(3 * causes.len(), 0);
    Ok(Tidied { coordinates, indices, firsts, causes, vertices: used.len(), triangles: kept.len() })
}

/// The first vertex with the bits of this one; −0 and +0 are not the same.
fn first(vertices: &[Point], v: usize) -> usize {
    (0..v).find(|&w| vertices[w].map(f32::to_bits) == vertices[v].map(f32::to_bits)).unwrap_or(v)
}

/// Why a triangle goes, by the numbers after merging: 1 for two equal ones, else 2 where an earlier triangle has the same three. 0: it is kept.
fn cause(merged: &[[u32; 3]], k: usize) -> u32 {
    let [a, b, c] = merged[k];
    if a == b || b == c || a == c {
        1
    } else if (0..k).any(|j| in_any_order(merged[j], merged[k])) {
        2
    } else {
        0
    }
}

fn in_any_order(t: [u32; 3], [a, b, c]: [u32; 3]) -> bool {
    [[a, b, c], [a, c, b], [b, a, c], [b, c, a], [c, a, b], [c, b, a]].contains(&t)
}

/// What the program prints for a text: its merges, its drops and the tidied job; the number alone where it is refused. `large` lifts the job
/// program's limits.
pub fn listing(given: &[u8], large: bool) -> Vec<u8> {
    let job = match text::read(given) {
        Some(job) if large || text::within_limits(&job) => job,
        _ => return b"answer=9\n".to_vec(),
    };
    match tidy(&job) {
        Ok(tidied) => printed(&job, &tidied).into_bytes(),
        Err(number) => format!("answer={number}\n").into_bytes(),
    }
}

fn printed(job: &Job, tidied: &Tidied) -> String {
    let vertices = tidied.firsts.iter().enumerate().filter(|&(v, &first)| first as usize != v);
    let triangles = tidied.causes.iter().enumerate().filter(|&(_, &cause)| cause != 0);
    let merges: String = vertices.map(|(v, first)| format!("merge={v} {first}\n")).collect();
    let drops: String = triangles.map(|(k, cause)| format!("drop={k} {cause}\n")).collect();
    merges + &drops + &text::write(&kept(job, tidied))
}

/// The tidied job. It has explicit indices, and all else as it was said, the table's edition too, whatever number it is.
pub fn kept(job: &Job, tidied: &Tidied) -> Job {
    let coordinates = &tidied.coordinates[..3 * tidied.vertices];
    Job {
        vertices: coordinates.chunks_exact(3).map(|v| [v[0], v[1], v[2]]).collect(),
        indices: Some(tidied.indices[..3 * tidied.triangles].to_vec()),
        ..job.clone()
    }
}
