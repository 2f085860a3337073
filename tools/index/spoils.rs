//! The ways to spoil an index, so that it is no longer that of the old names; where there is nothing to spoil, it is left as it is.

use crate::plain::{index_of, Call, Index, NONE};
use crate::random::Random;

/// A way to spoil the index of an update, by its words.
pub type Spoil = (&'static str, fn(&Call, &mut Random) -> Index);

pub const SPOILS: [Spoil; 19] = [
    ("a cell exchanged with its neighbour", |call, r| on_list(call, r, |list, at, _| list.swap(at, at + 1))),
    ("two cells of any facets exchanged", |call, r| on_list(call, r, |list, at, other| list.swap(at, other))),
    ("a cell twice", |call, r| on_list(call, r, |list, at, other| list[at] = list[other])),
    ("another cell", |call, r| on_list(call, r, |list, at, other| list[at] = other as u32)),
    ("a cell beyond the names", |call, r| on_list(call, r, |list, at, _| list[at] = list.len() as u32)),
    ("none under a facet", |call, r| on_list(call, r, |list, at, _| list[at] = NONE)),
    ("a facet's cells descending", descending),
    ("a cell missing", |call, r| changed_row(call, r, false)),
    ("a cell too many", |call, r| changed_row(call, r, true)),
    ("a start one too high", |call, r| on_starts(call, r, |starts, at| starts[at] = starts[at].wrapping_add(1))),
    ("a start one too low", |call, r| on_starts(call, r, |starts, at| starts[at] = starts[at].wrapping_sub(1))),
    ("a start beyond the list", |call, r| on_starts(call, r, |starts, at| starts[at] = [starts.len() as u32 + 99, NONE, 1 << 31][at % 3])),
    ("two starts exchanged", |call, r| on_starts(call, r, |starts, at| starts.swap(at, (at + 1) % starts.len().max(1)))),
    ("the first start not 0", |call, r| on_starts(call, r, |starts, _| starts[0] = 1)),
    ("a tail of other words", |call, r| on_tail(call, r, |tail, _, word| tail.fill(word))),
    ("one other word in the tail", |call, r| on_tail(call, r, |tail, at, word| tail[at] = word)),
    ("the index of the new names", |call, _| index_of(call.triangles, &call.names)),
    ("the starts of the new names", |call, _| Index { starts: index_of(call.triangles, &call.names).starts, list: call.lent.list.clone() }),
    ("any small words", |call, r| {
        let mut words = |list: &[u32]| list.iter().map(|_| r.below(list.len() as u64 + 1) as u32).collect();
        Index { starts: words(&call.lent.starts), list: words(&call.lent.list) }
    }),
];

/// Two places of the list up to its end, the first with a neighbour.
fn on_list(call: &Call, r: &mut Random, spoil: fn(&mut [u32], usize, usize)) -> Index {
    let mut index = call.lent.clone();
    let places = index.list.len() as u64;
    if places > 1 {
        let (at, other) = (r.below(places - 1) as usize, r.below(places) as usize);
        spoil(&mut index.list, at, other);
    }
    index
}

fn on_starts(call: &Call, r: &mut Random, spoil: fn(&mut [u32], usize)) -> Index {
    let mut index = call.lent.clone();
    let at = r.below(index.starts.len() as u64) as usize;
    spoil(&mut index.starts, at);
    index
}

fn on_tail(call: &Call, r: &mut Random, spoil: fn(&mut [u32], usize, u32)) -> Index {
    let mut index = call.lent.clone();
    let end = index.starts[call.triangles as usize] as usize;
    let tail = &mut index.list[end..];
    if !tail.is_empty() {
        let at = r.below(tail.len() as u64) as usize;
        // A cell that stands nowhere too, since none is named.
        let word = r.pick(&[0, NONE - 1, end as u32, at as u32]);
        spoil(tail, at, word);
    }
    index
}

fn descending(call: &Call, r: &mut Random) -> Index {
    let mut index = call.lent.clone();
    let rows: Vec<_> = index.starts.windows(2).map(|pair| pair[0] as usize..pair[1] as usize).filter(|row| row.len() > 1).collect();
    if !rows.is_empty() {
        let row = rows[r.below(rows.len() as u64) as usize].clone();
        index.list[row].reverse();
    }
    index
}

/// As if a cell of the old names were not named, or one that names none named some facet: all starts behind it are moved.
fn changed_row(call: &Call, r: &mut Random, named: bool) -> Index {
    let mut old = call.old.clone().expect("an update has old names");
    let cells: Vec<usize> = (0..old.len()).filter(|&cell| (old[cell] == NONE) == named).collect();
    if call.triangles > 0 && !cells.is_empty() {
        let cell = cells[r.below(cells.len() as u64) as usize];
        old[cell] = if named { r.below(u64::from(call.triangles)) as u32 } else { NONE };
    }
    index_of(call.triangles, &old)
}
