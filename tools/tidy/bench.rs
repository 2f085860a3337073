//! bench [ROUNDS [FACETS [WORD]]]: the library's tidying beside the plain program with hash maps (plain.rs), on the same meshes in one process,
//! turn by turn. Prints for each workload and size the least time of each over the rounds (10; a round of a small mesh is several calls), in
//! nanoseconds a corner, three a facet, and the library's in milliseconds too; its ratio to maps that grow, and to maps that have room for all from
//! the start; and how the library's time has grown since the size before, beside how n log n has, n being the corners. FACETS is the largest size
//! (131,072). With a WORD only the workloads whose names contain it.
//!
//! All write into lent buffers, and must leave the same. The plain program makes its maps anew in each call, as it must; the library has no room
//! but what is lent.

#[allow(dead_code)]
mod meshes;
mod plain;
#[allow(dead_code)]
mod port;
#[path = "../generator/random.rs"]
#[allow(dead_code)]
mod random;
#[path = "../generator/shapes.rs"]
#[allow(dead_code)]
mod shapes;

use port::{Answer, Lent, Mesh};
use random::Random;
use std::hint::black_box;
use std::time::Instant;

const SIZES: [u32; 4] = [2_048, 16_384, 65_536, 131_072];

fn main() {
    let args: Vec<String> = std::env::args().skip(1).collect();
    let number = |i: usize, otherwise: u32| match args.get(i).map(|word| word.parse()) {
        None => otherwise,
        Some(Ok(number)) if number > 0 => number,
        _ => {
            eprintln!("usage: tidy-bench [ROUNDS [FACETS [WORD]]]");
            std::process::exit(2);
        }
    };
    let (rounds, largest) = (number(0, 10), number(1, SIZES[3]));
    let word = args.get(2).map_or("", String::as_str);
    println!("load before: {}", load());
    println!("                                                    the library     maps that grow   maps with room");
    println!("workload          facets  vertices     kept  dropped       ms  ns/corner  ns/corner  ratio  ns/corner  ratio  grown  n log n");
    let mut ratios = Vec::new();
    for (name, make) in meshes::WORKLOADS.into_iter().filter(|(name, _)| name.contains(word)) {
        let mut before: Option<(f64, f64)> = None;
        for facets in SIZES.into_iter().filter(|&facets| facets <= largest) {
            let mesh = make(facets, &mut Random::new(7, 0));
            let (mut ours, mut theirs) = (Lent::fitting(&mesh), Lent::fitting(&mesh));
            let answer = library_tidies(&mesh, &mut ours);
            let [vertices, triangles] = plain::tidy(&mesh, &mut theirs, false);
            assert_eq!(answer, Answer { number: 0, vertices: vertices as u32, triangles: triangles as u32 }, "{name} of {facets} facets");
            assert!(ours == theirs, "both leave the same for {name} of {facets} facets");
            // About as long a round at every size.
            let calls = (SIZES[3] / facets / 4).max(1);
            // The least of: the library, maps that grow, maps with room.
            let mut least = [f64::MAX; 3];
            for _ in 0..rounds {
                let round = [
                    timed(calls, || library_tidies(black_box(&mesh), black_box(&mut ours))),
                    timed(calls, || plain::tidy(black_box(&mesh), black_box(&mut theirs), false)),
                    timed(calls, || plain::tidy(black_box(&mesh), black_box(&mut theirs), true)),
                ];
                for (least, time) in least.iter_mut().zip(round) {
                    *least = least.min(time);
                }
            }
            let corners = f64::from(3 * facets);
            let [library, grow, room] = least;
            let n_log_n = corners * corners.log2();
            let grown = before.map_or(String::new(), |(time, n)| format!("{:>7.1}  {:>7.1}", library / time, n_log_n / n));
            println!(
                "{name:<15} {facets:>8}  {:>8} {vertices:>8} {:>8} {:>8.3} {:>10.1} {:>10.1} {:>6.2} {:>10.1} {:>6.2}{grown}",
                mesh.vertices(),
                mesh.triangles() - triangles,
                library * 1e3,
                library * 1e9 / corners,
                grow * 1e9 / corners,
                library / grow,
                room * 1e9 / corners,
                library / room
            );
            before = Some((library, n_log_n));
            ratios.push((name, facets, [library / grow, library / room]));
        }
    }
    for (n, maps) in ["maps that grow", "maps with room"].into_iter().enumerate() {
        ratios.sort_by(|a, b| a.2[n].total_cmp(&b.2[n]));
        if let (Some(least), Some(most)) = (ratios.first(), ratios.last()) {
            let words = |(name, facets, ratio): &(&str, u32, [f64; 2])| format!("{:.2} ({name}, {facets} facets)", ratio[n]);
            println!("the library's time by that of {maps}: {} to {}", words(least), words(most));
        }
    }
    println!("load after: {}", load());
}

fn library_tidies(mesh: &Mesh, lent: &mut Lent) -> Answer {
    let Lent { coordinates, indices, firsts, causes } = lent;
    let (given, list) = mesh.indices.as_ref().map_or((0, &[][..]), |list| (1, list));
    port::ask(&mesh.coordinates, [0, given], list, [coordinates, indices, firsts, causes])
}

/// Seconds of one call, out of `calls` in a row.
fn timed<T>(calls: u32, mut call: impl FnMut() -> T) -> f64 {
    let begin = Instant::now();
    for _ in 0..calls {
        black_box(call());
    }
    begin.elapsed().as_secs_f64() / f64::from(calls)
}

fn load() -> String {
    std::fs::read_to_string("/proc/loadavg").unwrap_or_default().trim().to_string()
}
