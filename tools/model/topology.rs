//! "Topology".

use crate::Job;

#[derive(Clone, Copy, PartialEq)]
pub enum Topology {
    List,
    Strip,
}

/// The triangles in order, each as its three vertex numbers. Triangle 0 is the first.
pub fn triangles(job: &Job) -> Vec<[u32; 3]> {
    // Without indices the vertex numbers 0, 1, 2 .. stand in.
    let numbers = match &job.indices {
        Some(indices) => indices.clone(),
        None => (0..job.vertices.len() as u32).collect(),
    };
    let three = |t: &[u32]| [t[0], t[1], t[2]];
    match job.topology {
        // Consecutive threes, one or two left over are ignored.
        Topology::List => numbers.chunks_exact(3).map(three).collect(),
        // Every window of three, in order, winding as it comes.
        Topology::Strip => numbers.windows(3).map(three).collect(),
    }
}
