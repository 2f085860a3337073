//! What the calls of an index are made of at random: names, and what a call is refused for.

use crate::plain::{Call, Index, MOST_TRIANGLES, NONE};
use crate::random::Random;

/// Numbers of triangles that are too many.
pub const TOO_MANY: [u32; 4] = [MOST_TRIANGLES + 1, MOST_TRIANGLES + 2, 1 << 31, u32::MAX];

/// Names of so many cells: any, in runs, of one facet, of few, or none at all.
pub fn random_names(triangles: u32, cells: u32, r: &mut Random) -> Vec<u32> {
    let any = |r: &mut Random| if triangles == 0 { NONE } else { r.below(u64::from(triangles)) as u32 };
    let (one, few) = (any(r), [any(r), any(r), NONE]);
    let nones = r.pick(&[2, 4, 1_000]);
    let mut last = any(r);
    let way = r.below(8);
    (0..cells)
        .map(|_| {
            last = match way {
                0 => one,
                1 => NONE,
                2 => r.pick(&few),
                3 if !r.once_in(4) => last,
                _ if r.once_in(nones) => NONE,
                _ => any(r),
            };
            last
        })
        .collect()
}

/// The names before: others, the same, or the same but for one cell.
pub fn old_names(names: &[u32], triangles: u32, r: &mut Random) -> Vec<u32> {
    let other = random_names(triangles, names.len() as u32, r);
    match r.below(4) {
        0 => names.to_vec(),
        1 if !names.is_empty() => {
            let mut old = names.to_vec();
            let cell = r.below(old.len() as u64) as usize;
            old[cell] = other[cell];
            old
        }
        _ => other,
    }
}

pub fn noise(starts: usize, list: usize, r: &mut Random) -> Index {
    let mut words = |length: usize| (0..length).map(|_| r.next() as u32).collect();
    Index { starts: words(starts), list: words(list) }
}

/// A name that is neither a triangle nor none, among the names or among the old ones.
pub fn unknown_name(call: &mut Call, r: &mut Random) {
    let t = call.triangles;
    let name = r.pick(&[t, t + 1, NONE - 1, MOST_TRIANGLES, 1 << 31]);
    let list = match &mut call.old {
        Some(old) if r.once_in(2) => old,
        _ => &mut call.names,
    };
    if !list.is_empty() {
        let at = r.below(list.len() as u64) as usize;
        list[at] = name;
    }
}

/// A length that is not the names', or not the triangles' plus one, of one slice or of two.
pub fn wrong_length(call: &mut Call, r: &mut Random) {
    for _ in 0..r.pick(&[1, 1, 2]) {
        let of_old = 2 + u64::from(call.old.is_some());
        let list = match r.below(of_old + 1) {
            0 => &mut call.lent.starts,
            1 => &mut call.lent.list,
            2 => &mut call.names,
            _ => call.old.as_mut().expect("an update has old names"),
        };
        let far = list.len() + 2 + r.below(9) as usize;
        let length = r.pick(&[list.len().saturating_sub(1), list.len() + 1, 0, far]);
        list.resize(length, NONE);
    }
}
