//! The index of a job's names (document 02, §12), which says which cells name a facet: the library's held to the plain one of tools/index.

#[path = "../index/plain.rs"]
#[allow(dead_code)]
mod plain;
#[path = "../index/port.rs"]
mod port;

use plain::{index_of, Index};

/// The names' index, as the library builds it over slices that hold other words, is the plain one.
pub fn hold_build(triangles: u32, names: &[u32]) -> Result<Index, String> {
    let mut index = Index { starts: vec![5; triangles as usize + 1], list: vec![6; names.len()] };
    match port::build(triangles, names, &mut index.starts, &mut index.list) {
        0 if index == index_of(triangles, names) => Ok(index),
        0 => Err("the index of the names is not the plain one".to_string()),
        number => Err(format!("the index of the names is refused by {number}")),
    }
}

/// The old names' index is brought up to date to what a build from the new ones gives. Before that each wrong index is refused by 18, and
/// stays as it was: that of the new names, where it is another, and the old one with a word changed. Says how many were.
pub fn hold_update(triangles: u32, old: &[u32], names: &[u32]) -> Result<u64, String> {
    let (mut index, fresh) = (hold_build(triangles, old)?, hold_build(triangles, names)?);
    let mut changed = index.clone();
    let middle = changed.list.len() / 2;
    changed.list[middle] ^= 1;
    let mut refused = 0;
    for wrong in [&fresh, &changed].into_iter().filter(|&wrong| *wrong != index) {
        let mut lent = wrong.clone();
        let number = port::update(triangles, old, names, &mut lent.starts, &mut lent.list);
        if number != 18 || lent != *wrong {
            return Err(format!("an update with a wrong index is answered by {number}, or changes it"));
        }
        refused += 1;
    }
    match port::update(triangles, old, names, &mut index.starts, &mut index.list) {
        0 if index == fresh => Ok(refused),
        0 => Err("an index that is brought up to date is not the one that is built".to_string()),
        number => Err(format!("an update of the index is refused by {number}")),
    }
}
