//! Tidying by hash maps, as one would write it in plain Rust who trusts the mesh: no bounds are looked at, and nothing is refused. It writes into
//! the lent buffers as the library does, and has beside them a map and a set of the standard library, with its own hasher, and two lists. The map
//! and the set may grow as they are filled, or have room for all from the start: the first is quicker where there are many vertices of few points,
//! the second where there are few. tools/tidy-bench holds the library's time to both; tools/tidy-large holds them to the model, and where the model
//! would take hours the library to them.

use crate::port::{Lent, Mesh};
use std::collections::{HashMap, HashSet};

/// Leaves the four outputs, and gives how many vertices and triangles are kept. With `room` the maps do not grow.
pub fn tidy(mesh: &Mesh, lent: &mut Lent, room: bool) -> [usize; 2] {
    let capacity = |all: usize| if room { all } else { 0 };
    let mut seen: HashMap<[u32; 3], u32> = HashMap::with_capacity(capacity(lent.firsts.len()));
    for (v, point) in mesh.coordinates.chunks_exact(3).enumerate() {
        lent.firsts[v] = *seen.entry([point[0], point[1], point[2]]).or_insert(v as u32);
    }

    let mut facets: HashSet<[u32; 3]> = HashSet::with_capacity(capacity(lent.causes.len()));
    let mut used = vec![false; lent.firsts.len()];
    let mut triangles = 0;
    for k in 0..lent.causes.len() {
        let corner = |n: usize| match &mesh.indices {
            Some(indices) => lent.firsts[indices[3 * k + n] as usize],
            None => lent.firsts[3 * k + n],
        };
        let merged = [corner(0), corner(1), corner(2)];
        let mut sorted = merged;
        sorted.sort_unstable();
        lent.causes[k] = if sorted[0] == sorted[1] || sorted[1] == sorted[2] {
            1
        } else if !facets.insert(sorted) {
            2
        } else {
            lent.indices[3 * triangles..3 * triangles + 3].copy_from_slice(&merged);
            merged.iter().for_each(|&v| used[v as usize] = true);
            triangles += 1;
            0
        };
    }

    let mut numbers = vec![0; used.len()];
    let mut vertices = 0;
    for v in (0..used.len()).filter(|&v| used[v]) {
        lent.coordinates[3 * vertices..3 * vertices + 3].copy_from_slice(&mesh.coordinates[3 * v..3 * v + 3]);
        numbers[v] = vertices as u32;
        vertices += 1;
    }
    lent.indices[..3 * triangles].iter_mut().for_each(|index| *index = numbers[*index as usize]);
    lent.coordinates[3 * vertices..].fill(0);
    lent.indices[3 * triangles..].fill(0);
    [vertices, triangles]
}
