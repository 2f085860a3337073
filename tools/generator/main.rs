//! jobs N SEED [KIND | SET]: prints N jobs, each as a line `job=INDEX KIND BYTES` and then exactly that many bytes of
//! the job's text. The same seed gives the same jobs; job INDEX does not depend on N. Without a KIND the kinds take turns:
//! those of the set `base`, of the set `inside` (all triangles within the grid's box), of the set `off-grid` (about its sides), or of
//! all three. By name alone: the set `old` (old jobs, for the converter), the set `long` (longer lists than an old job had), the set
//! `normal` (jobs with Normal signs), the set `upright` (jobs that say which axis is upright), the set `tidy` (jobs for the tidier), and the set
//! `table` (jobs that say the edition of the layer table).
//! jobs --kinds: prints the names of the kinds.

mod damage;
mod inside;
mod kinds;
mod normal;
mod off_grid;
mod old;
mod random;
mod shapes;
mod table;
mod tidy;
mod upright;

use random::Random;
use std::io::Write;

fn main() {
    let args: Vec<String> = std::env::args().skip(1).collect();
    if args == ["--kinds"] {
        kinds::BASE.iter().for_each(|(name, _)| println!("{name} (base)"));
        inside::KINDS.iter().for_each(|(name, _)| println!("{name} (inside)"));
        off_grid::KINDS.iter().for_each(|(name, _)| println!("{name} (off-grid)"));
        old::KINDS.iter().for_each(|(name, _)| println!("{name} (old)"));
        old::LONG.iter().for_each(|(name, _)| println!("{name} (long)"));
        normal::KINDS.iter().for_each(|(name, _)| println!("{name} (normal)"));
        upright::KINDS.iter().for_each(|(name, _)| println!("{name} (upright)"));
        tidy::KINDS.iter().for_each(|(name, _)| println!("{name} (tidy)"));
        table::KINDS.iter().for_each(|(name, _)| println!("{name} (table)"));
        let alone = kinds::ALONE.iter().chain(&normal::ALONE).chain(&upright::ALONE).chain(&table::ALONE);
        alone.for_each(|(name, _)| println!("{name} (by name alone)"));
        return;
    }
    let number = |i: usize| args.get(i).and_then(|a| a.parse::<u64>().ok());
    let (Some(jobs), Some(seed)) = (number(0), number(1)) else {
        eprintln!("usage: jobs N SEED [KIND | base | inside | off-grid | old | long | normal | upright | tidy | table] | jobs --kinds");
        std::process::exit(2);
    };
    let mut out = std::io::BufWriter::new(std::io::stdout().lock());
    // One kind by name is a turn by itself.
    let word = args.get(2).map(String::as_str);
    let kinds = match word {
        None | Some("base" | "inside" | "off-grid" | "old" | "long" | "normal" | "upright" | "tidy" | "table") => kinds::of_set(word),
        Some(kind) => vec![kind],
    };
    let turns = kinds.len() as u64;
    for index in 0..jobs {
        let kind = kinds[(index % turns) as usize];
        let round = index / turns;
        // Two numbers of one generator seed another: seeds and jobs do not run into each other.
        let start = Random::new(seed, 0).next().wrapping_add(index);
        let mut r = Random::new(Random::new(start, 0).next(), round);
        let Some(text) = kinds::make(kind, &mut r) else {
            eprintln!("no such kind: {kind}");
            std::process::exit(2);
        };
        writeln!(out, "job={index} {kind} {}", text.len()).expect("standard output");
        out.write_all(&text).expect("standard output");
    }
}
