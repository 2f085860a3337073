//! The jobs that tools/bench and tools/bench-two time: seven workloads on cubes of four sizes; five on tall and lying grids; and one
//! plate, whose few hits cost less to add than every count to sum. tools/bench-two has one more, of as many facets as a job may have,
//! for which the Rust would take minutes.

use crate::meshes;
use crate::random::Random;
use crate::shapes::{self, Mesh};
use model::grid::Grid;
use model::Job;

type Make = fn(&Grid, u32, &mut Random) -> Mesh;

const CLOSED_TANK: (&str, Make) = ("closed-tank", |grid, n, r| meshes::tank(grid, n, 0.9, r));
const NOISY_SCAN: (&str, Make) = ("noisy-scan", |grid, n, r| meshes::scan(grid, n, 0.5, r));
const LARGE_FACETS: (&str, Make) = ("large-facets", |grid, n, r| meshes::soup_of(grid, n / 8, 8.0, r));

/// A closed tank, its scan with vertices off by up to half a cell, that without its roof, and triangles anywhere on the grid: to
/// two cells across; to sixteen, of which there are an eighth as many; and as many to twenty; and an open deck, for which Normal signs are
/// meant. None is off the grid: such a job would
/// be refused, and nothing timed.
const ON_CUBES: [(&str, Make); 7] = [
    CLOSED_TANK,
    NOISY_SCAN,
    ("open-tank", |grid, n, r| meshes::without_roof(meshes::scan(grid, n, 0.5, r))),
    ("soup", |grid, n, r| meshes::soup_of(grid, n, 1.0, r)),
    LARGE_FACETS,
    ("dense-facets", |grid, n, r| meshes::soup_of(grid, n, 10.0, r)),
    ("open-deck", |grid, n, r| {
        let cells = f64::from(grid.count[2]);
        meshes::deck(grid, n, [0.45 * cells, 0.1 * cells], 0.1, r)
    }),
];
/// Cells along each axis, and triangles.
const SIZES: [(u32, u32); 4] = [(16, 625), (32, 2_500), (64, 10_000), (100, 20_000)];

/// The others, with their counts and triangles: each of about as many cells as the largest cube.
const OTHERS: [((&str, Make), [u32; 3], u32); 6] = [
    (CLOSED_TANK, TALL, 2_500),
    (NOISY_SCAN, TALL, 2_500),
    (LARGE_FACETS, TALL, 2_500),
    (("stacked-plates", |grid, n, _| plates(grid, n)), TALL, 400),
    (("lying-tank", lying_tank), [1_024, 32, 32], 2_500),
    (("one-plate", |grid, n, _| plates(grid, n)), [100; 3], 2),
];
const TALL: [u32; 3] = [32, 32, 1_024];
const LARGEST: u32 = 100;

/// A closed tank on its side: upright in the grid with x and z changed over, and laid along x.
fn lying_tank(grid: &Grid, triangles: u32, r: &mut Random) -> Mesh {
    let [x, y, z] = grid.count;
    let mut mesh = meshes::tank(&Grid { count: [z, y, x], ..*grid }, triangles, 0.9, r);
    for vertex in &mut mesh.vertices {
        vertex.swap(0, 2);
    }
    mesh
}

/// Level plates of two triangles each, across the grid and evenly one above the other. No centre lies on an edge of them.
fn plates(grid: &Grid, triangles: u32) -> Mesh {
    let [x, y, z] = grid.count.map(f64::from);
    let plates = triangles / 2;
    let mut mesh = Mesh::default();
    for n in 0..plates {
        let height = z * (f64::from(n) + 0.5) / f64::from(plates) - 0.3;
        mesh.vertices.extend([[-1.3, -1.1], [x + 0.7, -1.1], [x + 0.7, y + 0.9], [-1.3, y + 0.9]].map(|[x, y]| [x, y, height]));
        mesh.triangles.extend([[0, 1, 2], [0, 2, 3]].map(|t: [u32; 3]| t.map(|v| 4 * n + v)));
    }
    mesh
}

/// A job with its name, and the edge of a cube of about as many cells.
pub struct Workload {
    pub name: &'static str,
    pub edge: u32,
    pub job: Job,
}

impl Workload {
    fn new((name, make): (&'static str, Make), edge: u32, count: [u32; 3], triangles: u32) -> Workload {
        let grid = Grid { first: [0.05; 3], size: [0.1; 3], count, upright: None };
        let mesh = make(&grid, triangles, &mut Random::new(7, 0));
        Workload { name, edge, job: meshes::plain(grid, mesh) }
    }

    /// With this axis upright.
    pub fn standing(mut self, upright: u32) -> Workload {
        self.job.grid.upright = Some(upright);
        self
    }

    /// The counts of its grid, as words.
    pub fn counts(&self) -> String {
        let [x, y, z] = self.job.grid.count;
        format!("{x} x {y} x {z}")
    }

    /// Whether an axis has many times the cells of another.
    pub fn is_long(&self) -> bool {
        let count = self.job.grid.count;
        count.iter().max() > count.iter().min().map(|n| n * 8).as_ref()
    }
}

/// The upright axis that a word asks for; z without one. Ends the program at another word.
pub fn upright(word: Option<&str>) -> u32 {
    match word {
        None | Some("z") => 2,
        Some("y") => 1,
        Some("x") => 0,
        Some(word) => {
            eprintln!("no such upright axis: {word}");
            std::process::exit(2);
        }
    }
}

/// The workloads one after the other, each in its sizes to cubes with `largest` cells along each axis.
pub fn all(largest: u32) -> impl Iterator<Item = Workload> {
    let cubes = ON_CUBES.into_iter().flat_map(|made| {
        SIZES.into_iter().map(move |(edge, triangles)| (made, edge, [edge; 3], triangles))
    });
    let others = OTHERS.into_iter().map(|(made, count, triangles)| (made, LARGEST, count, triangles));
    cubes
        .chain(others)
        .filter(move |(_, edge, ..)| *edge <= largest)
        .map(|(made, edge, count, triangles)| Workload::new(made, edge, count, triangles))
}

/// A closed tank of exactly as many facets as a job may have, 131,072, on a cube of 64 cells along each axis; where that is not larger
/// than asked for.
pub fn most_facets(largest: u32) -> Option<Workload> {
    let tank = |_: &Grid, _, _: &mut Random| shapes::turned([31.2, 32.3, 30.5], &shapes::tank_profile(22.9, 24.0, 64, 129), 256);
    (largest >= 64).then(|| Workload::new(("most-facets", tank), 64, [64; 3], 131_072))
}
