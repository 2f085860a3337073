//! check [N [SEED [FIRST]]]: N calls of the library's index (20,000), made at random from call FIRST (0) on, each held to the plain one
//! (plain.rs): the number, every word of both slices, and the words around them, which must stay; on a refusal nothing may have
//! changed. Then every index that two facets and three cells can have, and calls at the bounds. Prints how many calls of each kind
//! were answered by which number, and each difference with what makes it again, up to 20; ends with 1 if there was any.
//!
//! Most calls have up to 6 triangles and 12 names, where each way of going wrong comes soon; one in 16 up to some thousand of both.
//! A call is brought to no refusal or to some: too many triangles (3), a wrong length (15), a name that is not known (4), and, in
//! an update, an index that is spoilt (18), in one of the ways of `spoils.rs`. The plain index says which of them it is.

mod calls;
#[allow(dead_code)]
mod plain;
mod port;
#[path = "../generator/random.rs"]
#[allow(dead_code)]
mod random;
mod spoils;

use calls::{noise, old_names, random_names, unknown_name, wrong_length, TOO_MANY};
use plain::{index_of, Call, Index, MOST_NAMES, MOST_TRIANGLES, NONE};
use random::Random;
use spoils::SPOILS;
use std::collections::BTreeMap;

/// Words before and behind a lent slice that nobody may touch.
const AROUND: usize = 8;

/// What a run has seen: of each kind of call, and of each way to spoil an index, how many were answered by which number.
#[derive(Default)]
struct Seen {
    kinds: BTreeMap<String, BTreeMap<u32, u64>>,
    spoils: BTreeMap<&'static str, BTreeMap<u32, u64>>,
    answers: BTreeMap<u32, u64>,
    words: u64,
    differences: u64,
}

fn main() {
    let args: Vec<String> = std::env::args().skip(1).collect();
    let number = |i: usize, otherwise: u64| match args.get(i).map(|word| word.parse()) {
        None => otherwise,
        Some(Ok(number)) => number,
        Some(Err(_)) => {
            eprintln!("usage: index-check [N [SEED [FIRST]]]");
            std::process::exit(2);
        }
    };
    let (calls, seed, first) = (number(0, 20_000), number(1, 2026), number(2, 0));
    let mut seen = Seen::default();
    for index in first..first + calls {
        // Two numbers of one generator seed another: seeds and calls do not run into each other.
        let start = Random::new(seed, 0).next().wrapping_add(index);
        let mut r = Random::new(Random::new(start, 0).next(), index);
        let (kind, spoil, call) = random_call(&mut r);
        let verdict = seen.hold(&kind, spoil, &call, &mut r);
        seen.tell(verdict, || format!("call {index} ({kind}), seed {seed}; again: tools/index-check 1 {seed} {index}"));
    }
    every_small_index(&mut seen);
    at_bounds(&mut seen);
    seen.print();
    std::process::exit(i32::from(seen.differences > 0));
}

impl Seen {
    /// One call over slices with noise around them, held to the plain index.
    fn hold(&mut self, kind: &str, spoil: Option<&'static str>, call: &Call, r: &mut Random) -> Result<(), String> {
        let (number, owed) = plain::answer(call);
        *self.answers.entry(number).or_default() += 1;
        *self.kinds.entry(kind.to_string()).or_default().entry(number).or_default() += 1;
        if let Some(way) = spoil {
            *self.spoils.entry(way).or_default().entry(number).or_default() += 1;
        }
        self.words += (owed.starts.len() + owed.list.len()) as u64;
        let mut slices = [&call.lent.starts, &call.lent.list].map(|lent| Around::new(lent, r));
        let (old, names) = (call.old.clone(), call.names.clone());
        let [starts, list] = slices.each_mut().map(Around::lent);
        let found = match &old {
            Some(old) => port::update(call.triangles, old, &names, starts, list),
            None => port::build(call.triangles, &names, starts, list),
        };
        if found != number {
            return Err(format!("answered {found}, owed is {number}"));
        }
        if old != call.old || names != call.names {
            return Err(format!("answered {number}, and the names have changed"));
        }
        for (what, slice, owed) in [("starts", &slices[0], owed.starts), ("list", &slices[1], owed.list)] {
            slice.hold(&owed).map_err(|words| format!("answered {number}, {what}: {words}"))?;
        }
        Ok(())
    }

    fn tell(&mut self, verdict: Result<(), String>, what: impl Fn() -> String) {
        if let Err(words) = verdict {
            self.differences += 1;
            if self.differences <= 20 {
                println!("{}: {words}", what());
            }
        }
    }

    fn print(&self) {
        let by_number = |answers: &BTreeMap<u32, u64>| {
            let parts: Vec<String> = answers.iter().map(|(number, calls)| format!("{number}: {calls}")).collect();
            parts.join(", ")
        };
        for (kind, answers) in &self.kinds {
            println!("{:>9}  {kind} (answers {})", answers.values().sum::<u64>(), by_number(answers));
        }
        for (way, answers) in &self.spoils {
            println!("{:>9}  of these {way} (answers {})", answers.values().sum::<u64>(), by_number(answers));
        }
        println!("{} calls, {} words of starts and lists; answers {}", self.answers.values().sum::<u64>(), self.words, by_number(&self.answers));
        println!("{} differences", self.differences);
    }
}

/// A lent slice between words of noise.
struct Around {
    before: Vec<u32>,
    now: Vec<u32>,
}

impl Around {
    fn new(lent: &[u32], r: &mut Random) -> Around {
        let mut before: Vec<u32> = (0..AROUND).map(|_| r.next() as u32).collect();
        before.extend(lent);
        before.extend((0..AROUND).map(|_| r.next() as u32));
        Around { now: before.clone(), before }
    }

    fn lent(&mut self) -> &mut [u32] {
        let end = self.now.len() - AROUND;
        &mut self.now[AROUND..end]
    }

    fn hold(&self, owed: &[u32]) -> Result<(), String> {
        let end = self.now.len() - AROUND;
        if self.now[..AROUND] != self.before[..AROUND] || self.now[end..] != self.before[end..] {
            return Err("words around it have changed".to_string());
        }
        match (0..owed.len()).find(|&at| self.now[AROUND + at] != owed[at]) {
            Some(at) => Err(format!("word {at} of {} is {}, owed is {}", owed.len(), self.now[AROUND + at], owed[at])),
            None => Ok(()),
        }
    }
}

// Calls made at random.

fn random_call(r: &mut Random) -> (String, Option<&'static str>, Call) {
    let (triangles, cells) = if r.once_in(16) { (r.between(0, 3_000), r.between(0, 4_000)) } else { (r.between(0, 6), r.between(0, 12)) };
    let names = random_names(triangles, cells, r);
    // Five calls of eight are updates, and half of all calls have no flaw but a spoilt index.
    let old = (r.below(8) < 5).then(|| old_names(&names, triangles, r));
    let flaws = if r.once_in(2) { 0 } else { r.below(8) };
    let lent = match &old {
        Some(old) => index_of(triangles, old),
        None => noise(triangles as usize + 1, cells as usize, r),
    };
    let mut call = Call { triangles, old, names, lent };
    let mut brought_to = Vec::new();
    let spoil = (call.old.is_some() && r.below(4) < 3).then(|| r.pick(&SPOILS));
    if let Some((_, spoil)) = spoil {
        call.lent = spoil(&call, r);
        brought_to.push("18");
    }
    if flaws & 1 != 0 {
        unknown_name(&mut call, r);
        brought_to.push("4");
    }
    if flaws & 2 != 0 {
        wrong_length(&mut call, r);
        brought_to.push("15");
    }
    if flaws & 4 != 0 {
        call.triangles = r.pick(&TOO_MANY);
        brought_to.push("3");
    }
    brought_to.reverse();
    let what = if call.old.is_some() { "update" } else { "build" };
    let kind = if brought_to.is_empty() { what.to_string() } else { format!("{what}, with cause for {}", brought_to.join(" and ")) };
    (kind, spoil.map(|(way, _)| way).filter(|_| flaws == 0), call)
}

// Every small index.

/// Up to two triangles and three names, every one of them; and as the lent index every word that it can have or nearly: only that of the
/// old names may be taken. The new names are one cell's step further.
fn every_small_index(seen: &mut Seen) {
    let mut r = Random::new(1, 0);
    for (triangles, cells) in (0..=2u32).flat_map(|t| (0..=3usize).map(move |n| (t, n))) {
        let names: Vec<u32> = (0..triangles).chain([NONE]).collect();
        let words: Vec<u32> = (0..=cells as u32).chain([NONE]).collect();
        for old in every(&names, cells) {
            let mut new = old.clone();
            new.rotate_left(cells.min(1));
            for starts in every(&words, triangles as usize + 1) {
                for list in every(&words, cells) {
                    let lent = Index { starts: starts.clone(), list };
                    let call = Call { triangles, old: Some(old.clone()), names: new.clone(), lent };
                    let verdict = seen.hold("update of every small index", None, &call, &mut r);
                    seen.tell(verdict, || format!("{call:?}"));
                }
            }
        }
    }
}

/// Every list of so many of these words.
fn every(words: &[u32], length: usize) -> Vec<Vec<u32>> {
    let mut lists = vec![Vec::new()];
    for _ in 0..length {
        lists = lists.iter().flat_map(|list: &Vec<u32>| words.iter().map(|&word| [&list[..], &[word]].concat())).collect();
    }
    lists
}

// The bounds.

fn at_bounds(seen: &mut Seen) {
    let mut r = Random::new(2026, 0);
    let most = MOST_TRIANGLES;
    for triangles in [0, 1, most - 1, most, most + 1] {
        for cells in [0, 1, MOST_NAMES, MOST_NAMES + 1] {
            for names in names_at_bounds(triangles, cells, &mut r) {
                hold_at_bound(seen, triangles, &names, &mut r);
            }
        }
    }
}

/// Any names, none at all, the last triangle alone, one that is no triangle as the first and as the last, and the last triangle there.
fn names_at_bounds(triangles: u32, cells: usize, r: &mut Random) -> Vec<Vec<u32>> {
    let any = random_names(triangles, cells as u32, r);
    let mut all = vec![any.clone(), vec![NONE; cells], vec![triangles.wrapping_sub(1); cells]];
    for name in [triangles, NONE - 1, triangles.wrapping_sub(1)] {
        for place in [0, cells.saturating_sub(1)].into_iter().filter(|_| cells > 0) {
            let mut names = any.clone();
            names[place] = name;
            all.push(names);
        }
    }
    all
}

/// A build and an update over slices of right lengths and of wrong ones; the update with the index of the old names, and with others.
fn hold_at_bound(seen: &mut Seen, triangles: u32, names: &[u32], r: &mut Random) {
    let (starts, cells) = (triangles as usize + 1, names.len());
    let old = random_names(triangles, cells as u32, r);
    let right = index_of(triangles, &old);
    let mut first_off = right.clone();
    first_off.starts[0] = 1;
    let mut last_off = right.clone();
    match last_off.list.last_mut() {
        Some(last) => *last ^= 1,
        None => last_off.starts[starts - 1] = 1,
    }
    let lent = [right, first_off, last_off, noise(starts - 1, cells, r), noise(starts + 1, cells, r), noise(starts, cells + 1, r)];
    for (n, lent) in lent.into_iter().enumerate() {
        for old in [Some(old.clone()), None] {
            // Whatever stands in it, a build takes it: once will do.
            if old.is_none() && [1, 2].contains(&n) {
                continue;
            }
            let call = Call { triangles, old, names: names.to_vec(), lent: lent.clone() };
            let what = if call.old.is_some() { "update at the bounds" } else { "build at the bounds" };
            let verdict = seen.hold(what, None, &call, r);
            seen.tell(verdict, || format!("{what}, {triangles} triangles and {cells} names, lent {n}"));
        }
    }
}
