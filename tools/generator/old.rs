//! Old jobs, for the converter of document 02, §7: strips of closed tanks, boxes and spheres within the grid's box, so that what they are
//! converted to is done and has cells inside; strips that end up refused; lists; and texts on both sides of the limits. And long lists,
//! which only the job program reads. A kind that has ways takes them in turn.

use crate::inside::{ends, roomy_grid, within};
use crate::kinds::{body, job, place, Make, BEYOND};
use crate::random::Random;
use crate::shapes::{self, Mesh};
use model::convert::as_list;
use model::grid::Grid;
use model::topology::Topology;
use model::Job;

pub const KINDS: [(&str, Make); 20] = [
    // Hulls and walls.
    ("strip-box", |r| of_hull(r, boxed)),
    ("strip-tank", |r| of_hull(r, tank)),
    ("strip-sphere", |r| of_hull(r, sphere)),
    ("strip-hull-no-indices", |r| {
        let hull = r.turn(&[boxed as Draw, tank, sphere]);
        no_indices(of_hull(r, hull))
    }),
    ("strip-wall", wall),
    // Few corners, and corners that come again.
    ("strip-few", few),
    ("strip-repeats", repeats),
    // Limits.
    ("strip-indices-at-limit", indices_at_limit),
    ("strip-vertices-at-limit", vertices_at_limit),
    ("strip-other-limits", other_limits),
    // What the job program refuses, before 13 or once the strip is a list.
    ("strip-grid-beyond", grid_beyond),
    ("strip-vertex-beyond", vertex_beyond),
    ("strip-index-beyond", index_beyond),
    ("strip-off-grid", off_grid),
    ("strip-refused-later", refused_later),
    // Lists.
    ("old-list-no-indices", list_no_indices),
    ("old-list-left-over", list_left_over),
    ("old-list-at-limit", |r| {
        let length = r.turn(&[768, 769, 766, 770, 767, 771]);
        list_of(r, length)
    }),
    // The text itself; the kind's job is spoiled afterwards.
    ("damaged-strip", |r| of_hull(r, boxed)),
    ("damaged-strip-no-indices", wall_no_indices),
];

/// Lists of more indices than an old job had, for the job program: to its limit, 2,298, and beyond.
pub const LONG: [(&str, Make); 3] = [
    ("list-past-768", |r| {
        let length = r.turn(&[769, 771, 770, 1_000, 1_536, 2_047]);
        list_of(r, length)
    }),
    ("list-at-limit", |r| {
        let length = r.turn(&[2_298, 2_299, 2_297, 2_298, 2_296, 2_300]);
        list_of(r, length)
    }),
    ("list-of-longest-strip", |r| {
        as_list(&match r.turn(&[0, 1]) {
            0 => of_corners(r, sphere, 768),
            _ => no_indices(of_corners(r, sphere, 256)),
        })
    }),
];

/// A mesh in cell units whose triangles are those of one strip.
struct Strip {
    vertices: Vec<[f64; 3]>,
    corners: Vec<u32>,
}

type Draw = fn(&Grid, &mut Random) -> Strip;

// Strips.

/// A grid of some cells along each axis, so that a hull in it has cells inside.
fn some_cells(r: &mut Random) -> Grid {
    Grid { count: [0; 3].map(|_| r.between(3, 5)), ..roomy_grid(r) }
}

fn of_hull(r: &mut Random, draw: Draw) -> Job {
    let grid = some_cells(r);
    let Strip { vertices, corners } = draw(&grid, r);
    let mesh = Mesh { vertices, triangles: Vec::new() };
    Job { topology: Topology::Strip, indices: Some(corners), queue: 2_048, ..job(grid, &mesh, r) }
}

/// The same strip without indices: a vertex for each corner.
fn no_indices(job: Job) -> Job {
    let vertices = job.indices.iter().flatten().map(|&i| job.vertices[i as usize]).collect();
    Job { vertices, indices: None, ..job }
}

/// Strips one after the other as a single one. The last corner of each and the first of the next are repeated, which makes
/// triangles with equal corners between them.
fn stitched(strips: &[Vec<u32>]) -> Vec<u32> {
    let mut corners: Vec<u32> = Vec::new();
    for strip in strips {
        if let Some(&last) = corners.last() {
            corners.extend([last, strip[0]]);
        }
        corners.extend(strip);
    }
    corners
}

/// A wall between two rings of as many vertices, all round.
fn round(low: &[u32], high: &[u32]) -> Vec<u32> {
    (0..=low.len()).flat_map(|n| [low[n % low.len()], high[n % high.len()]]).collect()
}

/// Rings one above the other, and the walls between them.
fn ringed(rings: &[Vec<u32>]) -> Vec<u32> {
    stitched(&rings.windows(2).map(|pair| round(&pair[0], &pair[1])).collect::<Vec<_>>())
}

/// A closed box: all six sides in one go, or the walls and then floor and roof.
fn boxed(grid: &Grid, r: &mut Random) -> Strip {
    let (low, high) = ends(grid, r);
    let corners = match r.below(3) {
        0 => vec![2, 3, 0, 1, 5, 3, 7, 2, 6, 0, 4, 5, 6, 7],
        1 => vec![7, 6, 5, 4, 0, 6, 2, 7, 3, 5, 1, 0, 3, 2],
        _ => stitched(&[round(&[0, 1, 3, 2], &[4, 5, 7, 6]), vec![0, 1, 2, 3], vec![4, 5, 6, 7]]),
    };
    Strip { vertices: shapes::cuboid(low, high).vertices, corners }
}

/// Middle and half widths of a body within the grid's box.
fn body_within(grid: &Grid, r: &mut Random) -> ([f64; 3], [f64; 3]) {
    let (middle, mut half) = body(grid, r);
    for axis in 0..3 {
        let ends = [middle[axis] - half[axis], middle[axis] + half[axis]].map(|at| within(grid, axis, at));
        half[axis] = (middle[axis] - ends[0]).min(ends[1] - middle[axis]);
    }
    (middle, half)
}

/// A closed tank: rings on the floor, bands up the wall, rings on the roof.
fn tank(grid: &Grid, r: &mut Random) -> Strip {
    let (middle, half) = body_within(grid, r);
    let (rings, bands, segments) = (r.between(1, 2), r.between(1, 3), r.between(3, 9));
    let profile = shapes::tank_profile(half[0].min(half[1]), half[2], rings, bands);
    let vertices = shapes::turned(middle, &profile, segments).vertices;
    // The ends of the profile come first, then its other points, a ring each.
    let rows = (vertices.len() as u32 - 2) / segments;
    let mut all = vec![vec![0; segments as usize]];
    all.extend((0..rows).map(|row| (0..segments).map(|n| 2 + row * segments + n).collect()));
    all.push(vec![1; segments as usize]);
    Strip { vertices, corners: ringed(&all) }
}

fn sphere(grid: &Grid, r: &mut Random) -> Strip {
    let (bands, segments) = (r.between(2, 5), r.between(3, 9));
    sphere_of(grid, bands, segments, r)
}

/// A closed sphere by rings, from the lowest point to the highest.
fn sphere_of(grid: &Grid, bands: u32, segments: u32, r: &mut Random) -> Strip {
    let (middle, half) = body_within(grid, r);
    let vertices = shapes::sphere(middle, half, bands, segments).vertices;
    let mut all = vec![vec![0; segments as usize]];
    all.extend((0..bands - 1).map(|band| (0..segments).map(|n| 1 + band * segments + n).collect()));
    all.push(vec![vertices.len() as u32 - 1; segments as usize]);
    Strip { vertices, corners: ringed(&all) }
}

/// A strip of exactly so many corners: a sphere of many facets, and then on along its vertices, each of them twice.
fn of_corners(r: &mut Random, draw: Draw, length: usize) -> Job {
    let fine: Draw = |grid, r| {
        let segments = r.between(12, 16);
        sphere_of(grid, 240 / segments, segments, r)
    };
    let mut job = of_hull(r, if length > 600 { fine } else { draw });
    let vertices = job.vertices.len() as u32;
    let corners = job.indices.as_mut().expect("a strip with indices");
    let mut at = *corners.last().expect("a corner");
    while corners.len() < length {
        corners.extend([at, at]);
        at = (at + 1) % vertices;
    }
    corners.truncate(length);
    job
}

// The kinds.

/// A wall alone, open above and below: with indices, or with vertices in the strip's order and none.
fn wall(r: &mut Random) -> Job {
    if r.turn(&[0, 1]) == 0 {
        wall_no_indices(r)
    } else {
        of_hull(r, ring_wall)
    }
}

fn ring_wall(grid: &Grid, r: &mut Random) -> Strip {
    let (middle, half) = body_within(grid, r);
    let segments = r.between(3, 8);
    let profile = [(0.0, -half[2]), (half[0], -half[2]), (half[0].min(half[1]), half[2]), (0.0, half[2])];
    let vertices = shapes::turned(middle, &profile, segments).vertices;
    let ring = |row: u32| (0..segments).map(|n| row * segments + n).collect::<Vec<_>>();
    // Floor and roof have no facets, so their middles are left out.
    Strip { vertices: vertices[2..].to_vec(), corners: round(&ring(0), &ring(1)) }
}

fn wall_no_indices(r: &mut Random) -> Job {
    no_indices(of_hull(r, ring_wall))
}

/// No corner to five, with indices and without; below three corners there is no triangle, and nothing is checked.
fn few(r: &mut Random) -> Job {
    let ways = [2, 3, 0, 1, 5, 4].map(|corners| [(corners, true), (corners, false)]);
    let (corners, given) = r.turn(ways.as_flattened());
    let mut job = of_hull(r, boxed);
    let mut list = job.indices.take().expect("a strip with indices");
    list.truncate(corners);
    if given {
        if corners < 3 {
            list.fill(r.pick(&[7, 8, u32::MAX]));
        }
        job.indices = Some(list);
    } else {
        job.vertices.truncate(corners);
    }
    job
}

/// Corners that come again beside those that a turn needs.
fn repeats(r: &mut Random) -> Job {
    let way = r.turn(&["every-twice", "one-alone", "some", "there-and-back", "every-thrice"]);
    let mut job = of_hull(r, boxed);
    let old = job.indices.take().expect("a strip with indices");
    let corners = match way {
        "every-twice" => old.iter().flat_map(|&i| [i, i]).collect(),
        "every-thrice" => old.iter().flat_map(|&i| [i; 3]).collect(),
        "one-alone" => vec![r.below(8) as u32; r.between(3, 9) as usize],
        "some" => old.iter().flat_map(|&i| vec![i; 1 + usize::from(r.once_in(3))]).collect(),
        _ => old.iter().chain(old.iter().rev()).copied().collect(),
    };
    job.indices = Some(corners);
    job
}

/// 766 to 769 indices; and the longest that a conversion can be: every number as long as it may be.
fn indices_at_limit(r: &mut Random) -> Job {
    let length = r.turn(&[768, 769, 767, 0, 766]);
    if length > 0 {
        return of_corners(r, sphere, length);
    }
    let mut job = of_corners(r, sphere, 768);
    job.grid.count = [u32::MAX, u32::MAX, 0];
    job.vertices.resize(256, [0.5; 3]);
    job.indices.iter_mut().flatten().for_each(|index| *index = u32::MAX);
    job.pops = u32::MAX;
    job
}

/// 255 to 257 vertices, each of them a corner.
fn vertices_at_limit(r: &mut Random) -> Job {
    let length = r.turn(&[256, 257, 255]);
    no_indices(of_corners(r, sphere, length))
}

/// Cells and entries at their limits and beyond; and counts whose product is 0.
fn other_limits(r: &mut Random) -> Job {
    let mut job = of_hull(r, boxed);
    match r.turn(&[0, 1, 2, 3, 4]) {
        0 => job.grid.count = r.pick(&[[8, 8, 8], [512, 1, 1], [1, 32, 16]]),
        1 => job.grid.count = r.pick(&[[513, 1, 1], [1, 27, 19], [3, 9, 19]]),
        2 => job.queue = 2_049,
        3 => job.grid.count = [65_536, 65_536, 1],
        _ => job.grid.count = [u32::MAX, 0, u32::MAX],
    }
    // Where the grid was made longer, so is the box.
    let high = job.grid.count.map(|n| f64::from(n.clamp(1, 512)) - 0.75);
    let mesh = shapes::cuboid([-0.25; 3], high);
    job.vertices = mesh.vertices.iter().map(|v| place(&job.grid, *v)).collect();
    job
}

/// Refused by 1, beside what is refused by 2 now and then.
fn grid_beyond(r: &mut Random) -> Job {
    let mut job = of_hull(r, boxed);
    let axis = r.below(3) as usize;
    match r.turn(&[0, 1, 2]) {
        0 => job.grid.count[axis] = 0,
        1 => job.grid.size[axis] = r.pick(&[0.0, -1.0, 1_024.5, f32::NAN]),
        _ => {
            job.grid.first[axis] = f32::from_bits(r.pick(&BEYOND));
            job.vertices[1][axis] = f32::NAN;
        }
    }
    job
}

/// Refused by 2: a corner, or a vertex that no triangle uses; without triangles too. NaNs keep their bits in a text.
fn vertex_beyond(r: &mut Random) -> Job {
    let mut job = of_hull(r, boxed);
    match r.turn(&[0, 1, 2, 3]) {
        0 => {}
        1 => job = no_indices(job),
        2 => job.indices = Some(Vec::new()),
        _ => job.vertices.push([0.0; 3]),
    }
    let n = job.vertices.len() - 1;
    let beyond = r.turn(&[0xffff_ffff, 0x4980_0001, 0x7fc0_0000, 0x7f80_0001, 0xff80_0000]);
    job.vertices[n][r.below(3) as usize] = f32::from_bits(beyond);
    job
}

/// An index that a triangle uses at the number of vertices, or above: the list is refused by 4.
fn index_beyond(r: &mut Random) -> Job {
    let mut job = of_hull(r, boxed);
    let n = job.vertices.len() as u32;
    let corners = job.indices.as_mut().expect("a strip with indices");
    let at = match r.turn(&[0, 1, 2]) {
        0 => 0,
        1 => corners.len() - 1,
        _ => r.below(corners.len() as u64) as usize,
    };
    corners[at] = r.pick(&[n, n + 1, u32::MAX, 1 << 31]);
    job
}

/// A hull off the grid: the list is refused by 10. Beside it in turn an index beyond the vertices (4).
fn off_grid(r: &mut Random) -> Job {
    let way = r.turn(&["with-indices", "without", "an-index"]);
    let mut job = of_hull(r, boxed);
    let axis = r.below(3) as usize;
    let by = (job.grid.count[axis] as f32 + 1.0) * job.grid.size[axis];
    job.vertices.iter_mut().for_each(|v| v[axis] += by);
    match way {
        "without" => job = no_indices(job),
        "an-index" => job.indices.as_mut().expect("a strip with indices")[3] = 8,
        _ => {}
    }
    job
}

/// The list is refused in the run: no room (7), no pops or few (8), a NaN (6).
fn refused_later(r: &mut Random) -> Job {
    let mut job = of_hull(r, boxed);
    match r.turn(&[0, 1, 2, 3]) {
        0 => job.queue = r.pick(&[0, 1, 5]),
        1 => job.pops = 0,
        2 => job.pops = r.between(1, 9),
        _ => {
            // Document 01's own: the first cell's centre lies beside a segment whose squared length is 0.
            job.grid.first = [0.0; 3];
            job.grid.size = [1.0; 3];
            job.vertices = vec![[0.0; 3], [0.0; 3], [f32::from_bits(27 << 23), 0.0, 0.0]];
            job.indices = r.once_in(2).then(|| vec![0, 1, 2]);
        }
    }
    job
}

fn list_no_indices(r: &mut Random) -> Job {
    let mut job = no_indices(as_list(&of_hull(r, boxed)));
    job.vertices.truncate(job.vertices.len() - r.turn(&[0, 1, 2]));
    job
}

/// One or two indices left over, beyond the vertices half the time; they are not looked at.
fn list_left_over(r: &mut Random) -> Job {
    let mut job = as_list(&of_hull(r, boxed));
    let left = r.pick(&[0, job.vertices.len() as u32, u32::MAX]);
    job.indices.as_mut().expect("a list").extend(vec![left; r.turn(&[1, 2])]);
    job
}

/// A list of exactly so many indices: a closed sphere whose facets come again two more times each, so that as many crossings stay
/// odd, one triangle with equal corners where it must, and one or two indices left over.
fn list_of(r: &mut Random, length: usize) -> Job {
    let grid = some_cells(r);
    let (middle, half) = body_within(&grid, r);
    let segments = r.between(9, 13);
    let mut mesh = shapes::sphere(middle, half, (length as u32 / 6 / segments).clamp(3, 18), segments);
    let facets = mesh.triangles.clone();
    for [a, b, c] in facets {
        if mesh.triangles.len() + 2 <= length / 3 {
            mesh.triangles.extend([[b, c, a], r.pick(&[[a, b, c], [c, b, a]])]);
        }
    }
    if mesh.triangles.len() < length / 3 {
        mesh.triangles.push([0, 0, 1]);
    }
    let mut job = Job { queue: 2_048, ..job(grid, &mesh, r) };
    let left = r.pick(&[0, u32::MAX]);
    let indices = job.indices.as_mut().expect("a list with indices");
    indices.resize(length, left);
    job
}
