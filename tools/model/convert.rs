//! Document 02, §7: the converter. It reads an old job and prints the same job with its triangles listed by explicit indices; a list
//! it prints as it is. It is about text and refuses nothing: only what is no job, or beyond the limits that jobs had until then, is
//! `answer=9`.

use crate::topology::Topology;
use crate::{text, Job};

/// The limit on indices that jobs of both topologies had. The others have not changed.
const MOST_INDICES: usize = 768;

/// What the converter prints for a text.
pub fn convert(old: &[u8]) -> Vec<u8> {
    match text::read(old).filter(|job| text::within(job, MOST_INDICES)) {
        None => b"answer=9\n".to_vec(),
        // A list job is printed unchanged: `indices=none` and indices left over stay.
        Some(job) if job.topology == Topology::List => old.to_vec(),
        Some(job) => with_indices(old, &job),
    }
}

/// The same without limits.
pub fn convert_any(old: &[u8]) -> Vec<u8> {
    match text::read(old) {
        None => b"answer=9\n".to_vec(),
        Some(job) => text::write(&as_list(&job)).into_bytes(),
    }
}

/// The text of a strip as that of a list. All lines but that of the topology and those of the indices stay, word for word: those that need not be
/// there too, `upright=`, `sign=normal` and `table=`. None is added.
fn with_indices(old: &[u8], job: &Job) -> Vec<u8> {
    let indices = listed(job);
    let mut out = Vec::new();
    for line in old.split_inclusive(|&byte| byte == b'\n') {
        if line.starts_with(b"topology=") {
            out.extend(b"topology=list\n");
        } else if line.starts_with(b"indices=") {
            out.extend(format!("indices={}\n", indices.len()).bytes());
            out.extend(indices.iter().flat_map(|index| format!("i={index}\n").into_bytes()));
        } else if !line.starts_with(b"i=") {
            out.extend(line);
        }
    }
    out
}

/// The three vertex numbers of each triangle of a strip in turn: every window of three corners, as they come. Without indices the
/// vertex numbers stand in. Nothing is left out: no triangle with equal corners, and no index beyond the vertices.
fn listed(job: &Job) -> Vec<u32> {
    let corners: Vec<u32> = match &job.indices {
        Some(indices) => indices.clone(),
        None => (0..job.vertices.len() as u32).collect(),
    };
    (2..corners.len()).flat_map(|last| [corners[last - 2], corners[last - 1], corners[last]]).collect()
}

/// The job of a strip as that of a list, of any size. A list stays as it is.
pub fn as_list(job: &Job) -> Job {
    match job.topology {
        Topology::List => job.clone(),
        Topology::Strip => Job { topology: Topology::List, indices: Some(listed(job)), ..job.clone() },
    }
}
