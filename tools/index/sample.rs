//! sample calls: prints the calls of the index that crates/replay_index/stdin holds. sample answers: reads such calls from standard input, and
//! prints what is owed to them, by the plain index (plain.rs). tools/index-sample keeps both; samples/README.md has the formats.

mod calls;
mod plain;
#[path = "../generator/random.rs"]
#[allow(dead_code)]
mod random;
mod spoils;

use calls::{noise, old_names, random_names, unknown_name, wrong_length, TOO_MANY};
use plain::{cells_under, index_of, Call, Index, MOST_TRIANGLES, NONE};
use random::Random;
use spoils::SPOILS;
use std::fmt::Write as _;
use std::io::{Read, Write as _};

const SEED: u64 = 20_261_118;

fn main() {
    let bytes: Vec<u8> = match std::env::args().nth(1).as_deref() {
        Some("calls") => all_calls().iter().flat_map(written).flat_map(u32::to_le_bytes).collect(),
        Some("answers") => answers().into_bytes(),
        _ => {
            eprintln!("usage: sample calls | sample answers < CALLS");
            std::process::exit(2);
        }
    };
    std::io::stdout().write_all(&bytes).expect("what is printed can be written");
}

// The calls, and how they are stored.

/// A build is 1, an update 2; the triangles; the lengths of the old names, the names, the starts and the list; then these.
fn written(call: &Call) -> Vec<u32> {
    let old = call.old.as_deref().unwrap_or(&[]);
    let slices = [old, &call.names, &call.lent.starts, &call.lent.list];
    let mut words = vec![1 + u32::from(call.old.is_some()), call.triangles];
    words.extend(slices.map(|slice| slice.len() as u32));
    words.extend(slices.concat());
    words
}

fn read(words: &mut impl Iterator<Item = u32>) -> Option<Call> {
    let kind = words.next()?;
    let triangles = words.next()?;
    let lengths: Vec<u32> = words.by_ref().take(4).collect();
    let mut slices = lengths.into_iter().map(|length| words.by_ref().take(length as usize).collect());
    let mut slice = || slices.next();
    let (old, names, starts, list) = (slice()?, slice()?, slice()?, slice()?);
    Some(Call { triangles, old: (kind != 1).then_some(old), names, lent: Index { starts, list } })
}

/// What the program must print.
fn answers() -> String {
    let mut bytes = Vec::new();
    std::io::stdin().read_to_end(&mut bytes).expect("standard input can be read");
    let mut words = bytes.chunks_exact(4).map(|four| u32::from_le_bytes([four[0], four[1], four[2], four[3]]));
    let mut out = String::new();
    let mut index = 0;
    while let Some(call) = read(&mut words) {
        let (number, left) = plain::answer(&call);
        let what = if call.old.is_some() { "update" } else { "build" };
        writeln!(out, "call={index} {what}={} names={}", call.triangles, in_a_row(&call.names)).expect("a string takes it");
        writeln!(out, "answer={number}\nstarts={}\nlist={}", in_a_row(&left.starts), in_a_row(&left.list)).expect("a string takes it");
        for facet in (0..=left.starts.len() as u32).chain([u32::MAX]) {
            writeln!(out, "facet={facet} cells={}", in_a_row(cells_under(&left, facet))).expect("a string takes it");
        }
        index += 1;
    }
    out
}

fn in_a_row(numbers: &[u32]) -> String {
    numbers.iter().map(u32::to_string).collect::<Vec<_>>().join(" ")
}

// Which calls.

fn all_calls() -> Vec<Call> {
    let mut r = Random::new(SEED, 0);
    let mut calls = by_hand();
    calls.extend((0..50).map(|_| random_build(&mut r)));
    calls.extend((0..50).map(|_| random_update(&mut r)));
    calls.extend([longest(false, &mut r), longest(true, &mut r)]);
    calls.extend(lengths(&mut r));
    calls.extend(unknown(&mut r));
    calls.extend(too_many(&mut r));
    calls.extend(spoilt(&mut r));
    calls.extend(together(&mut r));
    calls
}

fn build(triangles: u32, names: &[u32]) -> Call {
    let lent = Index { starts: vec![7; triangles as usize + 1], list: vec![8; names.len()] };
    Call { triangles, old: None, names: names.to_vec(), lent }
}

fn update(triangles: u32, old: &[u32], names: &[u32]) -> Call {
    Call { triangles, old: Some(old.to_vec()), names: names.to_vec(), lent: index_of(triangles, old) }
}

/// Nothing at all, no triangle, no name, facets without cells in front, between and behind, cells in order and against it; and from each to the next.
fn by_hand() -> Vec<Call> {
    let of_none: [&[u32]; 2] = [&[], &[NONE, NONE]];
    let of_three: [&[u32]; 9] = [
        &[],
        &[NONE, NONE, NONE],
        &[0],
        &[2, 2, 2],
        &[1, NONE, 1, NONE],
        &[0, 1, 2],
        &[2, 1, 0],
        &[2, 0, NONE, 2, 0, 1, 0],
        &[NONE, 0, 0, 2, 2, NONE, NONE, 1],
    ];
    let mut calls: Vec<Call> = of_none.iter().map(|names| build(0, names)).collect();
    calls.extend(of_none.iter().map(|names| update(0, names, names)));
    calls.extend(of_three.iter().map(|names| build(3, names)));
    for (names, other) in of_three.iter().zip(&of_three[1..]) {
        // Of one length: the longer is cut off.
        let length = names.len().min(other.len());
        calls.push(update(3, &names[..length], &other[..length]));
        calls.push(update(3, &other[..length], &names[..length]));
        calls.push(update(3, other, other));
    }
    calls
}

fn random_build(r: &mut Random) -> Call {
    let (triangles, cells) = (r.between(0, 6), r.between(0, 12));
    let names = random_names(triangles, cells, r);
    Call { triangles, old: None, names, lent: noise(triangles as usize + 1, cells as usize, r) }
}

fn random_update(r: &mut Random) -> Call {
    let (triangles, cells) = (r.between(1, 5), r.between(2, 9));
    let names = random_names(triangles, cells, r);
    update(triangles, &old_names(&names, triangles, r), &names)
}

/// As many words as the program has room for.
fn longest(updated: bool, r: &mut Random) -> Call {
    let names = random_names(63, 64, r);
    if updated {
        update(63, &random_names(63, 64, r), &names)
    } else {
        build(63, &names)
    }
}

/// 15: each slice one too short, one too long and empty, of a build and of an update; two of them alike, where the third is another.
fn lengths(r: &mut Random) -> Vec<Call> {
    let mut calls = Vec::new();
    for of in [build(3, &[0, 2, 1, NONE]), update(3, &[2, 0, NONE, 0], &[0, 2, 1, NONE])] {
        for which in 0..4 {
            for length in [-1, 1, -5] {
                let mut call = of.clone();
                let slice = match which {
                    0 => &mut call.lent.starts,
                    1 => &mut call.lent.list,
                    2 => &mut call.names,
                    _ => match &mut call.old {
                        Some(old) => old,
                        None => continue,
                    },
                };
                slice.resize(slice.len().saturating_add_signed(length), NONE);
                calls.push(call);
            }
        }
    }
    // Names and list are as long as each other, and the old names are not; and so on.
    for (names, old, list) in [(3, 4, 3), (4, 3, 4), (4, 4, 3), (3, 3, 4), (3, 4, 4), (4, 3, 3), (3, 4, 5), (0, 2, 0)] {
        let mut call = random_update(r);
        call.names.resize(names, NONE);
        call.old.as_mut().expect("an update has old names").resize(old, NONE);
        call.lent.list.resize(list, NONE);
        calls.push(call);
    }
    calls
}

/// 4: the first numbers that are no triangle, and the last that is not none; as the first name and as the last, old or new.
fn unknown(r: &mut Random) -> Vec<Call> {
    let mut calls = vec![build(0, &[0]), build(0, &[NONE, NONE - 1]), update(0, &[NONE], &[0]), build(1, &[1]), build(1, &[0, 1])];
    for name in [3, 4, NONE - 1, MOST_TRIANGLES] {
        for place in [0, 3] {
            let mut names = [0, 2, 1, NONE];
            names[place] = name;
            calls.push(build(3, &names));
            calls.push(Call { names: names.to_vec(), ..update(3, &[2, 0, NONE, 0], &[0; 4]) });
            // The old names have it, in the place of a triangle's and of none's.
            let mut call = update(3, &[2, 0, 1, NONE], &[1, 1, 0, 2]);
            call.old.as_mut().expect("an update has old names")[place] = name;
            calls.push(call);
        }
    }
    // Both have one.
    let mut both = random_update(r);
    both.old.as_mut().expect("an update has old names")[0] = both.triangles;
    both.names[1] = both.triangles;
    calls.push(both);
    calls
}

/// 3, and the last number that is not: then the lengths are wrong.
fn too_many(r: &mut Random) -> Vec<Call> {
    let mut calls = Vec::new();
    for triangles in TOO_MANY.into_iter().chain([MOST_TRIANGLES, MOST_TRIANGLES - 1]) {
        calls.push(Call { triangles, ..random_build(r) });
        calls.push(Call { triangles, ..random_update(r) });
        // One more than the most in 32 bits is 0.
        calls.push(Call { triangles, lent: noise(0, 2, r), ..build(1, &[0, 0]) });
    }
    calls
}

/// 18: each way to spoil an index, on eight indices that it does spoil.
fn spoilt(r: &mut Random) -> Vec<Call> {
    let mut calls = Vec::new();
    for (_, spoil) in SPOILS {
        for _ in 0..8 {
            calls.push(drawn(r, |r| {
                let mut call = random_update(r);
                call.lent = spoil(&call, r);
                call
            }));
        }
    }
    calls
}

/// Draws until a call is refused by 18.
fn drawn(r: &mut Random, draw: impl Fn(&mut Random) -> Call) -> Call {
    loop {
        let call = draw(r);
        if plain::answer(&call).0 == 18 {
            return call;
        }
    }
}

/// Three of each choice of causes but 4 and 18 alone, most of them two or more at once: the first of 3, 15, 4 and 18 counts.
fn together(r: &mut Random) -> Vec<Call> {
    let mut calls = Vec::new();
    for causes in 3..16 {
        for _ in 0..3 {
            let mut call = random_update(r);
            if causes & 1 != 0 {
                call = drawn(r, |r| {
                    let call = random_update(r);
                    Call { lent: r.pick(&SPOILS).1(&call, r), ..call }
                });
            } else if r.once_in(2) {
                call = random_build(r);
            }
            if causes & 2 != 0 {
                unknown_name(&mut call, r);
            }
            if causes & 4 != 0 {
                wrong_length(&mut call, r);
            }
            if causes & 8 != 0 {
                call.triangles = r.pick(&TOO_MANY);
            }
            calls.push(call);
        }
    }
    calls
}
