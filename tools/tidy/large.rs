//! large N SEED [FIRST]: N meshes tidied by the library, as a C program calls it, from mesh FIRST (0) on; then those at the bounds. Prints each
//! difference with what makes it again, up to 20, and how much was compared; ends with 1 if there was any.
//!
//! A mesh of up to some thousand vertices is held to the model, which compares each with each: every word of the four outputs and both counts.
//! The buffers hold noise before the call, and words stand before and behind each that must stay; what was given must stay too. Then:
//!
//!   - the plain program with hash maps (plain.rs) must give the same;
//!   - what was kept is tidied again: nothing may be merged, dropped or changed;
//!   - without indices, those that are lent and not given may be anything; where they are given, any number but 0 says so;
//!   - each refusal, 2, 13, 4 and 5, alone and beside those that come after it, and 5 for each of the four lengths, too short, too long and 0:
//!     both counts are 0, and every buffer is as it was lent.
//!
//! At the bounds, of 393,216 vertices and 131,072 triangles, the plain program stands in for the model, which would take hours. One vertex more
//! is refused by 2, and one triangle more by 3.

mod meshes;
mod plain;
mod port;
#[path = "../generator/random.rs"]
#[allow(dead_code)]
mod random;
#[path = "../generator/shapes.rs"]
#[allow(dead_code)]
mod shapes;

use meshes::{OTHERS, WORKLOADS};
use port::{Answer, Lent, Mesh};
use random::Random;
use std::collections::BTreeMap;

/// Words before and behind a lent buffer that nobody may touch.
const AROUND: usize = 16;
const MOST_VERTICES: usize = 393_216;
const MOST_TRIANGLES: usize = 131_072;
/// Coordinates that are refused: just beyond the bound on both sides, infinities, NaNs.
const BEYOND: [u32; 6] = [0x4980_0001, 0xc980_0001, 0x7f80_0000, 0xff80_0000, 0x7fc0_0000, 0xffff_ffff];

/// What a run has seen.
#[derive(Default)]
struct Seen {
    kinds: BTreeMap<&'static str, u64>,
    meshes: u64,
    vertices: u64,
    triangles: u64,
    most: [usize; 2],
    merges: u64,
    /// Kept, and dropped by 1 and by 2.
    causes: [u64; 3],
    squeezed: u64,
    again: u64,
    refusals: BTreeMap<u32, u64>,
    differences: u64,
}

fn main() {
    let args: Vec<String> = std::env::args().skip(1).collect();
    let number = |i: usize| args.get(i).and_then(|a| a.parse::<u64>().ok());
    let (Some(meshes), Some(seed)) = (number(0), number(1)) else {
        eprintln!("usage: tidy-large N SEED [FIRST]");
        std::process::exit(2);
    };
    let first = number(2).unwrap_or(0);
    let all: Vec<_> = OTHERS.into_iter().chain(WORKLOADS).collect();
    let mut seen = Seen::default();
    for index in first..first + meshes {
        // Two numbers of one generator seed another: seeds and meshes do not run into each other.
        let start = Random::new(seed, 0).next().wrapping_add(index);
        let mut r = Random::new(Random::new(start, 0).next(), index);
        let (kind, make) = all[(index % all.len() as u64) as usize];
        // Mostly small, where each way of going wrong comes soon; some thousands of vertices once in eight.
        let facets = match r.below(8) {
            0 => r.between(500, 2_500),
            1 | 2 => r.between(50, 400),
            3 => r.between(0, 3),
            _ => r.between(1, 40),
        };
        let mesh = make(facets, &mut r);
        *seen.kinds.entry(kind).or_default() += 1;
        let verdict = compare(&mesh, true, &mut r, &mut seen).and_then(|()| refusals(&mesh, &mut r, &mut seen));
        if let Err(words) = verdict {
            seen.differences += 1;
            if seen.differences <= 20 {
                println!("mesh {index} ({kind}), seed {seed}: {words}");
                println!("    again: tools/tidy-large 1 {seed} {index}");
            }
        }
    }
    at_bounds(&mut seen);
    seen.print();
    std::process::exit(i32::from(seen.differences > 0));
}

// What is owed.

/// The outputs and counts that a mesh is owed: the model's, or those of the plain program, to which it must be equal where both are asked.
fn owed(mesh: &Mesh, naive: bool) -> Result<(Answer, Lent), String> {
    let (mut lent, mut other) = (Lent::fitting(mesh), Lent::fitting(mesh));
    let [vertices, triangles] = plain::tidy(mesh, &mut lent, false);
    if plain::tidy(mesh, &mut other, true) != [vertices, triangles] || lent != other {
        return Err("the plain program differs with maps that do not grow".to_string());
    }
    let answer = Answer { number: 0, vertices: vertices as u32, triangles: triangles as u32 };
    if naive {
        let tidied = model::tidy::tidy(&mesh.job()).map_err(|number| format!("the model refuses it by {number}"))?;
        let of_model = Lent {
            coordinates: tidied.coordinates.iter().map(|x| x.to_bits()).collect(),
            indices: tidied.indices,
            firsts: tidied.firsts,
            causes: tidied.causes,
        };
        if (tidied.vertices, tidied.triangles) != (vertices, triangles) || of_model != lent {
            return Err("the plain program differs from the model".to_string());
        }
    }
    Ok((answer, lent))
}

// What is asked.

/// Buffers with noise in them and around them.
struct Noise {
    with: [Vec<u32>; 4],
}

impl Noise {
    fn new(lengths: [usize; 4], r: &mut Random) -> Noise {
        Noise { with: lengths.map(|length| (0..length + 2 * AROUND).map(|_| r.next() as u32 | 1).collect()) }
    }

    fn ask(&mut self, coordinates: &[u32], words: [u32; 2], indices: &[u32]) -> Answer {
        let lent = self.with.each_mut().map(|list| {
            let end = list.len() - AROUND;
            &mut list[AROUND..end]
        });
        port::ask(coordinates, words, indices, lent)
    }

    /// What stands in the buffers, once what stands around them is as it was before.
    fn held(&self, before: &Noise) -> Result<Lent, String> {
        for (list, was) in self.with.iter().zip(&before.with) {
            let end = list.len() - AROUND;
            if list[..AROUND] != was[..AROUND] || list[end..] != was[end..] {
                return Err("words around a buffer have changed".to_string());
            }
        }
        let [coordinates, indices, firsts, causes] = self.with.each_ref().map(|list| list[AROUND..list.len() - AROUND].to_vec());
        Ok(Lent { coordinates, indices, firsts, causes })
    }
}

impl Clone for Noise {
    fn clone(&self) -> Noise {
        Noise { with: self.with.clone() }
    }
}

fn lengths_of(mesh: &Mesh) -> [usize; 4] {
    [mesh.coordinates.len(), 3 * mesh.triangles(), mesh.vertices(), mesh.triangles()]
}

/// One mesh, over buffers of right lengths that hold noise; then what was kept, again.
fn compare(mesh: &Mesh, naive: bool, r: &mut Random, seen: &mut Seen) -> Result<(), String> {
    let (answer, lent) = owed(mesh, naive)?;
    hold(mesh, answer, &lent, r)?;
    // What is kept is tidy.
    let (n, t) = (answer.vertices as usize, answer.triangles as usize);
    let kept = Mesh { coordinates: lent.coordinates[..3 * n].to_vec(), indices: Some(lent.indices[..3 * t].to_vec()) };
    let same = Lent {
        coordinates: kept.coordinates.clone(),
        indices: lent.indices[..3 * t].to_vec(),
        firsts: (0..n as u32).collect(),
        causes: vec![0; t],
    };
    hold(&kept, answer, &same, r).map_err(|words| format!("tidied twice: {words}"))?;
    seen.again += 1;
    seen.meshes += 1;
    seen.vertices += mesh.vertices() as u64;
    seen.triangles += mesh.triangles() as u64;
    seen.most = [seen.most[0].max(mesh.vertices()), seen.most[1].max(mesh.triangles())];
    let merges = lent.firsts.iter().enumerate().filter(|&(v, &first)| first as usize != v).count();
    seen.merges += merges as u64;
    seen.squeezed += (mesh.vertices() - merges - n) as u64;
    lent.causes.iter().for_each(|&cause| seen.causes[cause as usize] += 1);
    Ok(())
}

fn hold(mesh: &Mesh, answer: Answer, owes: &Lent, r: &mut Random) -> Result<(), String> {
    let before = Noise::new(lengths_of(mesh), r);
    let mut noise = before.clone();
    // Indices that are not given are not looked at, and any number but 0 gives them.
    let given = if mesh.indices.is_some() { r.pick(&[1, 2, u32::MAX]) } else { 0 };
    let indices = mesh.indices.clone().unwrap_or_else(|| (0..r.below(9)).map(|_| r.next() as u32).collect());
    let (coordinates, list) = (mesh.coordinates.clone(), indices.clone());
    let found = noise.ask(&coordinates, [0, given], &list);
    if coordinates != mesh.coordinates || list != indices {
        return Err("what was given has changed".to_string());
    }
    if found != answer {
        return Err(format!("{found:?}, owed is {answer:?}"));
    }
    let held = noise.held(&before)?;
    let of = |lent: &Lent| [lent.coordinates.clone(), lent.indices.clone(), lent.firsts.clone(), lent.causes.clone()];
    for ((name, held), owes) in ["coordinates", "indices", "firsts", "causes"].into_iter().zip(of(&held)).zip(of(owes)) {
        if let Some(at) = (0..owes.len()).find(|&at| held[at] != owes[at]) {
            return Err(format!("{name}: word {at} of {} is {:08x}, owed is {:08x}", owes.len(), held[at], owes[at]));
        }
    }
    Ok(())
}

// Refusals.

/// Each refusal that a mesh can be brought to, alone and beside those that come after it.
fn refusals(mesh: &Mesh, r: &mut Random, seen: &mut Seen) -> Result<(), String> {
    let right = lengths_of(mesh);
    // 5: each of the four lengths by itself, and all of them.
    for which in 0..4 {
        let far = right[which] + 3 + r.below(100) as usize;
        for wrong in [right[which].wrapping_sub(1), right[which] + 1, 0, far] {
            if wrong != right[which] && wrong < usize::MAX {
                let mut lengths = right;
                lengths[which] = wrong;
                refused(5, &mesh.coordinates, [0, 1], mesh, lengths, r, seen)?;
            }
        }
    }
    refused(5, &mesh.coordinates, [0, 1], mesh, right.map(|length| length + 1), r, seen)?;
    let lengths = |r: &mut Random| if r.once_in(2) { right } else { right.map(|length| length + r.below(2) as usize) };
    // 13, whatever number it is said by.
    let strip = r.pick(&[1, 2, u32::MAX]);
    refused(13, &mesh.coordinates, [strip, 1], mesh, lengths(r), r, seen)?;
    // 4: an index of some triangle.
    if mesh.triangles() > 0 && mesh.indices.is_some() {
        let mut bad = mesh.clone();
        let n = bad.vertices() as u32;
        let at = r.below(3 * mesh.triangles() as u64) as usize;
        bad.indices.as_mut().expect("it has indices")[at] = r.pick(&[n, n + 1, u32::MAX]);
        refused(4, &bad.coordinates, [0, 1], &bad, lengths(r), r, seen)?;
        refused(13, &bad.coordinates, [strip, 1], &bad, lengths(r), r, seen)?;
    }
    // 2: a coordinate out of bounds, or one or two too many.
    if !mesh.coordinates.is_empty() {
        let mut bad = mesh.coordinates.clone();
        let at = r.below(bad.len() as u64) as usize;
        bad[at] = r.pick(&BEYOND);
        refused(2, &bad, [r.pick(&[0, strip]), 1], mesh, lengths(r), r, seen)?;
    }
    let mut longer = mesh.coordinates.clone();
    longer.extend(vec![0; r.between(1, 2) as usize]);
    refused(2, &longer, [r.pick(&[0, strip]), 1], mesh, lengths(r), r, seen)
}

/// A call that must be refused by this number: both counts 0, and every buffer as it was lent. `given` counts only where the mesh has indices.
fn refused(
    number: u32,
    coordinates: &[u32],
    [topology, given]: [u32; 2],
    mesh: &Mesh,
    lengths: [usize; 4],
    r: &mut Random,
    seen: &mut Seen,
) -> Result<(), String> {
    let before = Noise::new(lengths, r);
    let mut noise = before.clone();
    let indices = mesh.indices.as_deref().unwrap_or(&[]);
    let answer = noise.ask(coordinates, [topology, given * u32::from(mesh.indices.is_some())], indices);
    let what = || format!("{} coordinates, {} indices, lent {lengths:?}", coordinates.len(), indices.len());
    if answer != (Answer { number, vertices: 0, triangles: 0 }) {
        return Err(format!("{}: {answer:?}, owed is {number}", what()));
    }
    if noise.with != before.with {
        return Err(format!("{}: refused by {number}, and a buffer has changed", what()));
    }
    *seen.refusals.entry(number).or_default() += 1;
    Ok(())
}

// The bounds.

fn at_bounds(seen: &mut Seen) {
    let mut r = Random::new(2026, 0);
    let facets = MOST_TRIANGLES as u32;
    for (kind, make) in OTHERS.into_iter().chain(WORKLOADS) {
        let mesh = make(facets, &mut r);
        *seen.kinds.entry("at the bounds").or_default() += 1;
        let verdict = compare(&mesh, false, &mut r, seen).and_then(|()| refusals(&mesh, &mut r, seen));
        seen.tell(format!("{kind} of {} vertices and {} triangles", mesh.vertices(), mesh.triangles()), verdict);
    }
    // As many vertices as there may be and as many triangles, by indices; and one more of either.
    let make = |vertices: usize, triangles: usize| Mesh {
        coordinates: (0..vertices as u32).flat_map(|v| [v as f32, 1.0, (v % 7) as f32].map(f32::to_bits)).collect(),
        indices: Some((0..3 * triangles).map(|n| (n % vertices) as u32).collect()),
    };
    let most = make(MOST_VERTICES, MOST_TRIANGLES);
    let verdict = compare(&most, false, &mut r, seen);
    seen.tell("as many as there may be, by indices".to_string(), verdict);
    for (vertices, triangles, number) in [
        (MOST_VERTICES + 1, MOST_TRIANGLES, 2),
        (MOST_VERTICES, MOST_TRIANGLES + 1, 3),
        (3, MOST_TRIANGLES + 1, 3),
        (MOST_VERTICES + 1, MOST_TRIANGLES + 1, 2),
        (MOST_VERTICES + 1, 0, 2),
    ] {
        let mesh = make(vertices, triangles);
        let verdict = beyond(&mesh, number, &mut r, seen);
        seen.tell(format!("{vertices} vertices and {triangles} triangles"), verdict);
    }
    // Without indices: one vertex more is left over, and no triangle of its own.
    let apart = Mesh { indices: None, ..make(MOST_VERTICES + 1, 0) };
    let verdict = beyond(&apart, 2, &mut r, seen);
    seen.tell("393,217 vertices without indices".to_string(), verdict);
}

/// A mesh beyond the bounds is refused by this number, over buffers of right and of wrong lengths; 3 with an index beyond the vertices too, and
/// as a strip by 13, which comes before 3 and after 2.
fn beyond(mesh: &Mesh, number: u32, r: &mut Random, seen: &mut Seen) -> Result<(), String> {
    let right = lengths_of(mesh);
    for lengths in [right, right.map(|length| length + 1), [0; 4]] {
        refused(number, &mesh.coordinates, [0, 1], mesh, lengths, r, seen)?;
        refused(if number == 3 { 13 } else { number }, &mesh.coordinates, [1, 1], mesh, lengths, r, seen)?;
    }
    let mut bad = mesh.clone();
    if let Some(index) = bad.indices.as_mut().and_then(|list| list.first_mut()) {
        *index = u32::MAX;
        refused(number, &bad.coordinates, [0, 1], &bad, right, r, seen)?;
    }
    Ok(())
}

impl Seen {
    fn tell(&mut self, what: String, verdict: Result<(), String>) {
        if let Err(words) = verdict {
            self.differences += 1;
            println!("at the bounds, {what}: {words}");
        }
    }

    fn print(&self) {
        for (kind, meshes) in &self.kinds {
            println!("{meshes:>7}  {kind}");
        }
        let [kept, flat, repeated] = self.causes;
        println!(
            "{} meshes tidied, {} vertices and {} triangles in all, the most {} and {}",
            self.meshes, self.vertices, self.triangles, self.most[0], self.most[1]
        );
        println!(
            "vertices merged: {}, squeezed out: {}; triangles kept: {kept}, dropped by 1: {flat}, by 2: {repeated}",
            self.merges, self.squeezed
        );
        println!("tidied twice, with nothing merged, dropped or changed: {}", self.again);
        for (number, calls) in &self.refusals {
            println!("refused by {number}, with every buffer as it was lent: {calls}");
        }
        println!("{} differences", self.differences);
    }
}
