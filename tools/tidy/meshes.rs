//! Meshes of any number of facets, for tools/tidy-bench and tools/tidy-large: what a scanner writes, and what may be hard on one who looks for
//! vertices and facets that come again.

use crate::port::Mesh;
use crate::random::Random;
use crate::shapes;

pub type Make = fn(u32, &mut Random) -> Mesh;

/// What is timed. But for `indexed` and `few-vertices` each facet has three vertices of its own and there are no indices, as STL has it.
pub const WORKLOADS: [(&str, Make); 13] = [
    // A closed tank, panel by panel: each point comes about six times.
    ("scan", |n, _| apart(&tank(n))),
    ("shuffled-scan", |n, r| {
        let mut tank = tank(n);
        shuffle(&mut tank.facets, r);
        apart(&tank)
    }),
    // A shuffled scan of half as many facets, and each of them once more in any order of its corners.
    ("facets-twice", |n, r| {
        let mut tank = tank(n / 2);
        let again: Vec<_> = tank.facets.iter().map(|t| in_any_order(*t, r)).collect();
        tank.facets.extend(again);
        shuffle(&mut tank.facets, r);
        apart(&tank)
    }),
    ("no-repeat", |n, r| soup(3 * n, |_| [0; 3].map(|_| r.unit() * 100.0))),
    ("all-the-same", |n, _| soup(3 * n, |_| [1.5, -2.5, 0.0])),
    // The tank by its own points: nothing is merged or dropped.
    ("indexed", |n, _| {
        let tank = tank(n);
        indexed(&tank.points, &tank.facets)
    }),
    // As many different facets over as few vertices as they take, in any order.
    ("few-vertices", |n, r| {
        let points = (1u32..).find(|m| u64::from(*m) * u64::from(m - 1) * u64::from(m.saturating_sub(2)) / 6 >= u64::from(n)).unwrap_or(0);
        let all = (0..points).flat_map(|c| (0..c).flat_map(move |b| (0..b).map(move |a| [a, b, c])));
        let mut facets: Vec<_> = all.take(n as usize).map(|t| in_any_order(t, r)).collect();
        shuffle(&mut facets, r);
        let points: Vec<_> = (0..points).map(|_| [0; 3].map(|_| r.unit() * 100.0)).collect();
        indexed(&points, &facets)
    }),
    // Vertices that are hard to tell apart, all of them different: whole numbers, one coordinate alone, its lowest bits alone.
    ("whole-numbers", |n, r| shuffled(soup(3 * n, |i| [i % 64, i / 64 % 64, i / 4_096].map(|x| x as f32)), r)),
    ("diagonal", |n, r| shuffled(soup(3 * n, |i| [i as f32, i as f32, 1.0]), r)),
    ("ascending", |n, _| soup(3 * n, |i| [1.0, 1.0, near_one(i)])),
    ("descending", |n, _| soup(3 * n, |i| [1.0, 1.0, near_one(3 * n - 1 - i)])),
    ("lowest-bits", |n, r| shuffled(soup(3 * n, |i| [near_one(i % 8), near_one(i / 8 % 8), near_one(i / 64)]), r)),
    // Chosen against the library's own spread (crates/tidy_search): all different, all looked for from one place, and alike in most of the bits
    // by which the search goes on from there. Where that is spread otherwise, these are vertices like others.
    ("one-head", one_head),
];

/// What is compared besides, of any number of facets to some thousands.
pub const OTHERS: [(&str, Make); 8] = [
    // Any corners over few points or many, with copies of them, and with indices: flat facets, and facets that come again.
    ("few-points", |n, r| {
        let points = r.between(1, 12);
        over(points, n, lattice, r)
    }),
    ("some-points", |n, r| {
        let points = r.between(10, 60);
        over(points, n, lattice, r)
    }),
    ("many-points", |n, r| over(n.max(1), n, |r| [0; 3].map(|_| r.between(0, 99) as f32 - 50.0), r)),
    // The same without indices.
    ("any-corners", |n, r| {
        let points = r.between(1, 40);
        let all: Vec<_> = (0..points).map(|_| lattice(r)).collect();
        soup(3 * n, |_| r.pick(&all))
    }),
    // Coordinates that are zeros of both signs, and the least that are not.
    ("zeros", |n, r| {
        let near = [0, 0x8000_0000, 1, 0x8000_0001].map(f32::from_bits);
        soup(3 * n, |_| [0; 3].map(|_| r.pick(&near)))
    }),
    // Any bits within the bounds, and copies of half of them.
    ("any-bits", |n, r| {
        let mut points: Vec<[f32; 3]> = Vec::new();
        soup(3 * n, |_| {
            let point = [0; 3].map(|_| any_float(r));
            points.push(if points.is_empty() || r.once_in(2) { point } else { points[r.below(points.len() as u64) as usize] });
            points[points.len() - 1]
        })
    }),
    // Many vertices, of which few are used, and copies of them anywhere.
    ("unused", |n, r| {
        let mut mesh = over(n.max(1), n, |r| [0; 3].map(|_| r.unit() * 8.0), r);
        let indices = mesh.indices.as_mut().expect("it has indices");
        indices.truncate(3 * (n as usize / 10));
        mesh
    }),
    // A scan with facets that come again, facets that are flat, one or two indices left over, and copies of its points.
    ("spoiled-scan", |n, r| {
        let mut tank = tank(n);
        for k in 0..tank.facets.len() {
            let [a, b, c] = tank.facets[k];
            let before = tank.facets[r.below(k as u64 + 1) as usize];
            match r.below(12) {
                0 => tank.facets[k] = r.pick(&[[a, a, c], [a, b, b], [a, b, a], [c; 3]]),
                1 | 2 => tank.facets[k] = in_any_order(before, r),
                _ => {}
            }
        }
        copied(&tank, r)
    }),
];

/// Different points, and facets as three numbers of them.
pub struct Facets {
    pub points: Vec<[f32; 3]>,
    pub facets: Vec<[u32; 3]>,
}

/// A closed tank of 2 · segments · rows facets; of any other number one that lacks a few.
fn tank(facets: u32) -> Facets {
    let segments = (1..12).map(|n| 1 << n).take_while(|n| n * n <= facets / 2).last().unwrap_or(2).max(3);
    let rows = facets.div_ceil(2 * segments).max(2);
    let rings = (rows / 8).max(1);
    let profile = shapes::tank_profile(5.0, 6.0, rings, (rows + 1 - 2 * rings).max(1));
    let mesh = shapes::turned([0.5, -1.5, 2.25], &profile, segments);
    let mut facets_of_it = mesh.triangles;
    facets_of_it.truncate(facets as usize);
    Facets { points: mesh.vertices.iter().map(|v| v.map(|x| x as f32)).collect(), facets: facets_of_it }
}

fn bits(points: &[[f32; 3]]) -> Vec<u32> {
    points.iter().flatten().map(|x| x.to_bits()).collect()
}

fn indexed(points: &[[f32; 3]], facets: &[[u32; 3]]) -> Mesh {
    Mesh { coordinates: bits(points), indices: Some(facets.as_flattened().to_vec()) }
}

/// A vertex for each corner.
fn apart(mesh: &Facets) -> Mesh {
    let corners: Vec<_> = mesh.facets.iter().flatten().map(|&v| mesh.points[v as usize]).collect();
    Mesh { coordinates: bits(&corners), indices: None }
}

fn soup(vertices: u32, point: impl FnMut(u32) -> [f32; 3]) -> Mesh {
    Mesh { coordinates: bits(&(0..vertices).map(point).collect::<Vec<_>>()), indices: None }
}

/// The vertices in any order.
fn shuffled(mesh: Mesh, r: &mut Random) -> Mesh {
    let mut points: Vec<[u32; 3]> = mesh.coordinates.chunks_exact(3).map(|v| [v[0], v[1], v[2]]).collect();
    shuffle(&mut points, r);
    Mesh { coordinates: points.into_flattened(), ..mesh }
}

/// Half as many vertices as facets, each any of so many points, and any corners; one or two indices left over now and then.
fn over(points: u32, facets: u32, point: fn(&mut Random) -> [f32; 3], r: &mut Random) -> Mesh {
    let points: Vec<_> = (0..points).map(|_| point(r)).collect();
    let vertices = (facets / 2).max(points.len() as u32 / 2).max(1);
    let all: Vec<_> = (0..vertices).map(|_| r.pick(&points)).collect();
    let mut mesh = indexed(&all, &(0..facets).map(|_| [0; 3].map(|_| r.between(0, vertices - 1))).collect::<Vec<_>>());
    left_over(&mut mesh, r);
    mesh
}

/// Copies of its points, in any order, about two of each, and each corner any copy of its point; left-over indices.
fn copied(mesh: &Facets, r: &mut Random) -> Mesh {
    let mut of: Vec<u32> = (0..mesh.points.len() as u32).collect();
    of.extend((0..mesh.points.len()).map(|_| r.below(mesh.points.len() as u64) as u32));
    shuffle(&mut of, r);
    let mut copies = vec![Vec::new(); mesh.points.len()];
    of.iter().enumerate().for_each(|(v, &point)| copies[point as usize].push(v as u32));
    let facets: Vec<_> = mesh.facets.iter().map(|t| t.map(|point| r.pick(&copies[point as usize]))).collect();
    let mut mesh = indexed(&of.iter().map(|&point| mesh.points[point as usize]).collect::<Vec<_>>(), &facets);
    left_over(&mut mesh, r);
    mesh
}

fn left_over(mesh: &mut Mesh, r: &mut Random) {
    let left = r.pick(&[0, 1, mesh.vertices() as u32, u32::MAX]);
    mesh.indices.as_mut().expect("it has indices").extend(vec![left; r.below(3) as usize]);
}

fn in_any_order([a, b, c]: [u32; 3], r: &mut Random) -> [u32; 3] {
    r.pick(&[[a, b, c], [b, c, a], [c, a, b], [a, c, b], [c, b, a], [b, a, c]])
}

/// The float so many above 1.
fn near_one(n: u32) -> f32 {
    f32::from_bits(1f32.to_bits() + n)
}

/// A point with small whole coordinates, and zeros of both signs.
fn lattice(r: &mut Random) -> [f32; 3] {
    [0; 3].map(|_| r.pick(&[-2.0, -1.0, -0.0, 0.0, 1.0, 2.0, 3.0, 4.0]))
}

/// Any bits of a coordinate that is within the bounds; now and then the bound itself.
fn any_float(r: &mut Random) -> f32 {
    if r.once_in(16) {
        return r.pick(&[1_048_576.0, -1_048_576.0]);
    }
    loop {
        let x = f32::from_bits(r.next() as u32);
        if x.abs() <= 1_048_576.0 {
            return x;
        }
    }
}

/// Vertices whose bits are mixed to one number, though all are different. The lower bits of x and y are the same in all, and z is what brings the
/// mixed number about.
fn one_head(facets: u32, _: &mut Random) -> Mesh {
    let mixed = |h: u64, x: u32| (h + u64::from(x)) * 0x4f1b_bcdd / 0x1_0000 % 0x1_0000_0000;
    let high = |i: u32| (i % 588) << 21 | i / 588 << 31;
    let bound = 1_048_576f32.to_bits();
    let within = |bits: u32| bits & 0x7fff_ffff <= bound;
    let pairs = (0..2 * 588).flat_map(|i| (0..2 * 588).map(move |j| [high(i), high(j)]));
    let points = pairs.filter_map(|[a, b]| {
        let c = u64::from(bound | 1 << 31).checked_sub(mixed(mixed(0, a), b))? as u32;
        within(c).then_some([a, b, c])
    });
    let coordinates: Vec<u32> = points.take(3 * facets as usize).flatten().collect();
    assert_eq!(coordinates.len(), 9 * facets as usize, "there are enough of them");
    Mesh { coordinates, indices: None }
}

fn shuffle<T>(list: &mut [T], r: &mut Random) {
    for i in (1..list.len()).rev() {
        list.swap(i, r.below(i as u64 + 1) as usize);
    }
}
