//! bench [ROUNDS]: reading and writing binary STL, the library beside a plain Rust loop, on the same inputs in one process,
//! turn by turn. Prints for each size the least time of each over the rounds (200; a round of the small file is a hundred
//! calls), as megabytes of file a second, and the ratio.
//!
//! The plain loops are what one would write who trusts the file: they look at its length and at no refusal else, and keep
//! a NaN's bits as they are. Both sides write into lent buffers, so nobody allocates while the clock runs.

use std::hint::black_box;
use std::time::Instant;

extern "C" {
    fn port_read_stl(
        file: *const u8,
        file_length: usize,
        vertices: *mut f32,
        coordinate_count: usize,
        number: *mut u32,
        facets: *mut u32,
    );
    fn port_write_stl(
        vertices: *const f32,
        coordinate_count: usize,
        file: *mut u8,
        file_length: usize,
        number: *mut u32,
        facets: *mut u32,
    );
}

const HEAD: usize = 84;
const RECORD: usize = 50;

fn library_reads(file: &[u8], vertices: &mut [f32]) {
    let (mut number, mut facets) = (0, 0);
    // SAFETY: every pointer is that of a slice or a number, with the slice's own length; none are shared.
    unsafe {
        port_read_stl(file.as_ptr(), file.len(), vertices.as_mut_ptr(), vertices.len(), &mut number, &mut facets);
    }
    assert_eq!((number, facets as usize), (0, vertices.len() / 9), "reading");
}

fn library_writes(vertices: &[f32], file: &mut [u8]) {
    let (mut number, mut facets) = (0, 0);
    // SAFETY: as above.
    unsafe {
        port_write_stl(vertices.as_ptr(), vertices.len(), file.as_mut_ptr(), file.len(), &mut number, &mut facets);
    }
    assert_eq!((number, facets as usize), (0, vertices.len() / 9), "writing");
}

// Not inlined: as functions of their own the loops' slices are known to lie apart, as a library's would be. Inlined here
// they were a third slower.
#[inline(never)]
fn loop_reads(file: &[u8], vertices: &mut [f32]) {
    let count = u32::from_le_bytes(file[80..84].try_into().unwrap()) as usize;
    assert_eq!(file.len(), HEAD + RECORD * count);
    for (record, corners) in file[HEAD..].chunks_exact(RECORD).zip(vertices.chunks_exact_mut(9)) {
        for (bytes, number) in record[12..48].chunks_exact(4).zip(corners) {
            *number = f32::from_le_bytes(bytes.try_into().unwrap());
        }
    }
}

#[inline(never)]
fn loop_writes(vertices: &[f32], file: &mut [u8]) {
    let count = vertices.len() / 9;
    assert_eq!(file.len(), HEAD + RECORD * count);
    file[..80].fill(0);
    file[80..84].copy_from_slice(&(count as u32).to_le_bytes());
    for (record, corners) in file[HEAD..].chunks_exact_mut(RECORD).zip(vertices.chunks_exact(9)) {
        record[..12].fill(0);
        for (bytes, number) in record[12..48].chunks_exact_mut(4).zip(corners) {
            bytes.copy_from_slice(&number.to_le_bytes());
        }
        record[48..].fill(0);
    }
}

/// A mesh of so many facets: finite numbers of both signs and many magnitudes, by a linear congruence.
fn corners(facets: usize) -> Vec<f32> {
    let mut state = 2026u64;
    (0..9 * facets)
        .map(|_| {
            state = state.wrapping_mul(6_364_136_223_846_793_005).wrapping_add(1_442_695_040_888_963_407);
            ((state >> 40) as f32 - 8_388_608.0) / 4096.0
        })
        .collect()
}

/// Seconds of one call, out of `calls` in a row.
fn timed(calls: u32, mut call: impl FnMut()) -> f64 {
    let begin = Instant::now();
    for _ in 0..calls {
        call();
    }
    begin.elapsed().as_secs_f64() / f64::from(calls)
}

fn main() {
    let rounds: u32 = std::env::args().nth(1).map_or(200, |word| word.parse().expect("ROUNDS is a number"));
    assert!(rounds > 0, "there is at least one round");
    println!("load before: {}", load());
    for (facets, calls) in [(131_072, 1), (1_000, 100)] {
        let mesh = corners(facets);
        let mut file = vec![0xa5; HEAD + RECORD * facets];
        let mut plain_file = vec![0x5a; file.len()];
        let (mut read, mut plain_read) = (vec![1.0; mesh.len()], vec![2.0; mesh.len()]);
        // The least of: the library's reading and writing, the loop's reading and writing.
        let mut least = [f64::MAX; 4];
        for _ in 0..rounds {
            let round = [
                timed(calls, || library_writes(black_box(&mesh), black_box(&mut file))),
                timed(calls, || loop_writes(black_box(&mesh), black_box(&mut plain_file))),
                timed(calls, || library_reads(black_box(&file), black_box(&mut read))),
                timed(calls, || loop_reads(black_box(&file), black_box(&mut plain_read))),
            ];
            for (least, time) in least.iter_mut().zip(round) {
                *least = least.min(time);
            }
        }
        assert!(file == plain_file, "both write the same file");
        assert!(read == mesh && plain_read == mesh, "both read the mesh that was written");
        println!("{facets} facets, a file of {} bytes", file.len());
        for (what, ours, theirs) in [("reading", least[2], least[3]), ("writing", least[0], least[1])] {
            let speed = |seconds: f64| file.len() as f64 / 1e6 / seconds;
            println!(
                "    {what}  {:>8.0} MB/s the library {:>8.0} MB/s the plain loop   {:.2} times as fast",
                speed(ours),
                speed(theirs),
                theirs / ours
            );
        }
    }
    println!("load after: {}", load());
}

fn load() -> String {
    std::fs::read_to_string("/proc/loadavg").unwrap_or_default().trim().to_string()
}
