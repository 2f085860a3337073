//! Jobs for the tidier (document 02, §10): scans whose corners and facets come again, and what that request turns on. A vertex is merged by its
//! bits, so its twins matter that are alike as numbers, or one float apart; a triangle goes by its numbers after merging; a vertex stays if a
//! kept triangle uses it, or one of its copies. The grid is not looked at: many of these jobs lie off it, and some have none that is within
//! bounds. Beside these stand the kinds of the other sets, and spoiled texts. A kind that has ways takes them in turn.

use crate::inside::{hull_in, next_up, roomy_grid};
use crate::kinds::{self, job, place, shuffle, Make, BEYOND};
use crate::normal::refuse_by;
use crate::random::Random;
use crate::shapes::Mesh;
use model::geometry::Point;
use model::grid::Grid;
use model::topology::Topology;
use model::{tidy, Job, SignMethod};

pub const KINDS: [(&str, Make); 29] = [
    // What a scanner writes.
    ("tidy-scan", scan),
    ("tidy-scan-repeats", scan_repeats),
    ("tidy-soup", soup),
    // Merging.
    ("tidy-twins", twins),
    ("tidy-copies", copies),
    ("tidy-first-unnamed", first_unnamed),
    ("tidy-all-same", all_same),
    // Dropping.
    ("tidy-six-orders", six_orders),
    ("tidy-flat", flat),
    ("tidy-flat-once-merged", flat_once_merged),
    ("tidy-flat-and-repeated", flat_and_repeated),
    // Squeezing.
    ("tidy-unused", unused),
    ("tidy-used-by-dropped", used_by_dropped),
    // How the triangles are listed.
    ("tidy-no-indices", no_indices),
    ("tidy-left-over", left_over),
    ("tidy-few", few),
    // Nothing to do.
    ("tidy-no-repeat", no_repeat),
    ("tidy-already", already),
    // What stays as it was said, and what is not looked at.
    ("tidy-lines", lines),
    ("tidy-any-grid", any_grid),
    // What is refused, and the job program's limits.
    ("tidy-refused", refused),
    ("tidy-at-limits", at_limits),
    // The other sets, each of their kinds in turn.
    ("tidy-base", |r| of(r, &kinds::of_set(Some("base")))),
    ("tidy-inside", |r| of(r, &kinds::of_set(Some("inside")))),
    ("tidy-off-grid", |r| of(r, &kinds::of_set(Some("off-grid")))),
    ("tidy-old", |r| of(r, &[kinds::of_set(Some("old")), kinds::of_set(Some("long"))].concat())),
    ("tidy-normal", |r| of(r, &kinds::of_set(Some("normal")))),
    ("tidy-upright", |r| of(r, &kinds::of_set(Some("upright")))),
    // The text itself; the kind's job is spoiled afterwards.
    ("damaged-tidy", |r| said(r, facets_and_copies)),
];

/// A job of these kinds, in turn.
fn of(r: &mut Random, kinds: &[&str]) -> Job {
    kinds::find(r.turn(kinds)).expect("a kind of another set")(r)
}

/// A job with both lines that need not be there said, each way in turn.
fn said(r: &mut Random, make: Make) -> Job {
    let uprights = [Some(0), Some(1), None, Some(2)];
    let ways = [SignMethod::Normal, SignMethod::Raycast].map(|sign| uprights.map(|upright| (sign, upright)));
    let (sign, upright) = r.turn(ways.as_flattened());
    let mut job = make(r);
    (job.sign, job.grid.upright) = (sign, upright);
    job
}

// Meshes by points and facets, and the same over copies of the points.

/// Different points, and facets as three numbers of them.
struct Facets {
    grid: Grid,
    points: Vec<Point>,
    facets: Vec<[u32; 3]>,
}

const ORDERS: [[usize; 3]; 6] = [[0, 1, 2], [1, 2, 0], [2, 0, 1], [0, 2, 1], [2, 1, 0], [1, 0, 2]];

fn in_order(facet: [u32; 3], order: [usize; 3]) -> [u32; 3] {
    order.map(|corner| facet[corner])
}

/// So many different points on centres and halfway between, so that many agree on two axes.
fn points(number: usize, r: &mut Random) -> Facets {
    let grid = roomy_grid(r);
    let mut points: Vec<Point> = Vec::new();
    while points.len() < number {
        let at = place(&grid, grid.count.map(|n| f64::from(r.between(0, 2 * n)) * 0.5 - 0.5));
        if !points.contains(&at) {
            points.push(at);
        }
    }
    Facets { grid, points, facets: Vec::new() }
}

/// The facets of a closed hull, and all its points.
fn hull(r: &mut Random) -> Facets {
    let grid = roomy_grid(r);
    let Mesh { vertices, triangles } = hull_in(&grid, r);
    let points = vertices.iter().map(|v| place(&grid, *v)).collect();
    Facets { grid, points, facets: triangles }
}

/// Three different numbers below n.
fn three(n: usize, r: &mut Random) -> [u32; 3] {
    loop {
        let [a, b, c] = [0; 3].map(|_| r.below(n as u64) as u32);
        if a != b && b != c && a != c {
            return [a, b, c];
        }
    }
}

/// A few different facets over a few points; not every point need have one.
fn some_facets(number: usize, r: &mut Random) -> Facets {
    let mut mesh = points(number, r);
    for _ in 0..r.between(2, 2 * number as u32) {
        let facet = three(number, r);
        let same = |other: &[u32; 3]| ORDERS.iter().any(|&order| in_order(facet, order) == *other);
        if !mesh.facets.iter().any(|other| same(other)) {
            mesh.facets.push(facet);
        }
    }
    mesh
}

/// The job of a mesh over its points as they are.
fn plain(mesh: Facets, r: &mut Random) -> Job {
    with(mesh.grid, mesh.points, mesh.facets, r)
}

fn with(grid: Grid, vertices: Vec<Point>, facets: Vec<[u32; 3]>, r: &mut Random) -> Job {
    Job { vertices, indices: Some(facets.into_flattened()), ..job(grid, &Mesh::default(), r) }
}

/// The job of a mesh over copies of its points: each point once and so many more, in any order. Each corner is any copy of its point.
fn over_copies(mesh: Facets, more: u32, r: &mut Random) -> Job {
    let n = mesh.points.len() as u32;
    let mut of: Vec<u32> = (0..n).collect();
    of.extend((0..more).map(|_| r.below(u64::from(n)) as u32));
    shuffle(&mut of, r);
    let mut copy = |point: u32| {
        let all: Vec<u32> = (0..of.len() as u32).filter(|&v| of[v as usize] == point).collect();
        r.pick(&all)
    };
    let facets = mesh.facets.iter().map(|t| t.map(&mut copy)).collect();
    let vertices = of.iter().map(|&point| mesh.points[point as usize]).collect();
    with(mesh.grid, vertices, facets, r)
}

/// The job with a vertex for each corner and no indices, as a scanner's file has them.
fn apart(job: Job) -> Job {
    let vertices = job.indices.iter().flatten().map(|&v| job.vertices[v as usize]).take(255).collect();
    Job { vertices, indices: None, ..job }
}

/// With facets that come again so often, in any order.
fn again(mut mesh: Facets, times: u32, r: &mut Random) -> Facets {
    for _ in 0..times {
        let facet = r.pick(&mesh.facets);
        mesh.facets.push(in_order(facet, r.pick(&ORDERS)));
    }
    mesh
}

/// With facets that have equal numbers, so many, of each of four ways in turn.
fn with_flat(mut mesh: Facets, times: u32, r: &mut Random) -> Facets {
    for n in 0..times {
        let [a, b, _] = three(mesh.points.len(), r);
        let flat = [[a, a, b], [a, b, b], [a, b, a], [a, a, a]][n as usize % 4];
        mesh.facets.insert(r.below(mesh.facets.len() as u64 + 1) as usize, flat);
    }
    mesh
}

/// A few facets that come again, over copies; some of them flat.
fn facets_and_copies(r: &mut Random) -> Job {
    let mesh = some_facets(4, r);
    let times = r.between(1, 3);
    let mut mesh = again(mesh, times, r);
    shuffle(&mut mesh.facets, r);
    let mesh = with_flat(mesh, times, r);
    over_copies(mesh, 4, r)
}

// What a scanner writes.

/// A closed hull, each facet with three corners of its own: each point comes about six times, and nothing is dropped.
fn scan(r: &mut Random) -> Job {
    let mut mesh = hull(r);
    shuffle(&mut mesh.facets, r);
    apart(plain(mesh, r))
}

/// The same with facets that come again, anywhere among the others: without indices, or with them and fewer copies.
fn scan_repeats(r: &mut Random) -> Job {
    let mesh = hull(r);
    let times = r.between(1, 9);
    let mut mesh = again(mesh, times, r);
    shuffle(&mut mesh.facets, r);
    let given = r.turn(&[false, true]);
    let more = r.between(0, 12);
    if given { over_copies(mesh, more, r) } else { apart(plain(mesh, r)) }
}

/// Any corners over few points: many facets are flat, and many come again.
fn soup(r: &mut Random) -> Job {
    let number = r.turn(&[3, 4, 5, 8, 2, 1]);
    let mut mesh = points(number, r);
    mesh.facets = (0..r.between(1, 40)).map(|_| [0; 3].map(|_| r.below(number as u64) as u32)).collect();
    let more = r.between(0, 24);
    if r.once_in(4) { apart(plain(mesh, r)) } else { over_copies(mesh, more, r) }
}

// Merging.

/// Points that are not the same, though they are alike as numbers or but one float apart, and copies of each. Facets that have a twin for
/// another corner, or for the third of its corners: none of these is flat, and none comes again.
fn twins(r: &mut Random) -> Job {
    let tiny = f32::from_bits(1);
    let ways = [[0.0, -0.0], [-0.0, 0.0], [tiny, 0.0], [-tiny, tiny], [-0.0, -tiny], [1.5, next_up(1.5)], [1.5, -1.5], [1_048_576.0, -1_048_576.0]];
    let twin = r.turn(&ways);
    let axes = r.turn(&[0b001, 0b010, 0b100, 0b111, 0b011]);
    let mut mesh = points(4, r);
    mesh.points.push(mesh.points[0]);
    for (point, x) in [(0, twin[0]), (4, twin[1])] {
        (0..3).filter(|axis| axes >> axis & 1 == 1).for_each(|axis| mesh.points[point][axis] = x);
    }
    mesh.facets = vec![[0, 1, 2], [4, 1, 2], [0, 4, 1], [1, 0, 4], [2, 3, 0], [4, 0, 3]];
    let mut mesh = again(mesh, 2, r);
    shuffle(&mut mesh.facets, r);
    over_copies(mesh, 7, r)
}

/// Copies of copies: each point three times or more, point by point, in turn, or there and back, so that the first is not the one before.
fn copies(r: &mut Random) -> Job {
    let way = r.turn(&["in-turn", "one-by-one", "there-and-back", "any"]);
    let (number, times) = (r.between(3, 6), r.between(3, 5));
    let mesh = points(number as usize, r);
    let mut of: Vec<u32> = (0..number * times).map(|n| if way == "one-by-one" { n / times } else { n % number }).collect();
    match way {
        "there-and-back" => of.extend((0..number).rev()),
        "any" => shuffle(&mut of, r),
        _ => {}
    }
    let facets = (0..r.between(4, 12)).map(|_| three(of.len(), r)).collect();
    let vertices = of.iter().map(|&point| mesh.points[point as usize]).collect();
    with(mesh.grid, vertices, facets, r)
}

/// Firsts that no index names, and which are used through their copies: all of them, one, or every second; behind a vertex that is not used.
fn first_unnamed(r: &mut Random) -> Job {
    let (every, front) = r.turn(&[(1, 0), (9, 0), (2, 0), (1, 1), (9, 2)]);
    let mut mesh = some_facets(5, r);
    shuffle(&mut mesh.facets, r);
    let unused = mesh.points.pop().expect("a point");
    mesh.facets.retain(|t| !t.contains(&4));
    mesh.facets.push([2, 1, 0]);
    let mut vertices = vec![unused; front];
    vertices.extend(&mesh.points);
    vertices.extend(&mesh.points);
    // A corner is the copy of its point where the first is not to be named.
    let named = |point: u32| front as u32 + if point % every == 0 { point + 4 } else { point };
    let facets = mesh.facets.iter().map(|t| t.map(named)).collect();
    with(mesh.grid, vertices, facets, r)
}

/// One point alone, as every vertex: all triangles go by 1, and all vertices. With its twin of another zero beside it now and then.
fn all_same(r: &mut Random) -> Job {
    let (vertices, given) = r.turn(&[(9, false), (5, true), (1, true), (256, false), (40, true)]);
    let mut mesh = points(1, r);
    mesh.facets = (0..r.between(1, 12)).map(|_| [0; 3].map(|_| r.below(vertices) as u32)).collect();
    let mut same = vec![mesh.points[0]; vertices as usize];
    if r.once_in(3) {
        let (v, axis) = (r.below(vertices) as usize, r.below(3) as usize);
        same.iter_mut().for_each(|point| point[axis] = 0.0);
        same[v][axis] = -0.0;
    }
    let job = with(mesh.grid, same, mesh.facets, r);
    if given { job } else { Job { indices: None, ..job } }
}

// Dropping.

/// A facet in all six orders, by the same numbers or by those of copies, among facets that share two of its corners.
fn six_orders(r: &mut Random) -> Job {
    let over = r.turn(&[0, 6, 12]);
    let mut mesh = points(5, r);
    mesh.facets = ORDERS.map(|order| in_order([0, 1, 2], order)).to_vec();
    mesh.facets.extend([[0, 1, 3], [3, 1, 2], [0, 4, 2], [1, 0, 3]]);
    shuffle(&mut mesh.facets, r);
    over_copies(mesh, over, r)
}

/// Equal numbers, of two corners or all three, among others.
fn flat(r: &mut Random) -> Job {
    let mesh = some_facets(5, r);
    let times = r.between(4, 8);
    let mesh = with_flat(mesh, times, r);
    plain(mesh, r)
}

/// Facets whose numbers are all different, and equal once merged: two of them, at each place, or all three.
fn flat_once_merged(r: &mut Random) -> Job {
    let mesh = some_facets(4, r);
    let mut vertices = mesh.points.clone();
    (0..2).for_each(|_| vertices.extend(&mesh.points));
    let mut facets = mesh.facets;
    for n in 0..r.between(4, 8) {
        let [a, b, _] = three(4, r);
        let flat = [[a, a + 4, b], [b + 4, a, b + 8], [a + 8, b, b + 4], [a + 4, a, a + 8]][n as usize % 4];
        facets.insert(r.below(facets.len() as u64 + 1) as usize, flat);
    }
    with(mesh.grid, vertices, facets, r)
}

/// Flat facets that come again, by the same numbers and by others: each goes by 1. And facets that come a third time: both later ones go by 2.
fn flat_and_repeated(r: &mut Random) -> Job {
    let mut mesh = some_facets(4, r);
    let [a, b, c] = three(4, r);
    let flat = r.turn(&[[a, a, b], [a, b, b], [a, b, a], [a, a, a]]);
    mesh.facets.extend([[a, b, c], [c, b, a], [b, a, c]]);
    mesh.facets.extend([0; 3].map(|_| in_order(flat, r.pick(&ORDERS))));
    shuffle(&mut mesh.facets, r);
    let more = r.turn(&[0, 5]);
    over_copies(mesh, more, r)
}

// Squeezing.

/// Vertices that no index names, in front, behind or anywhere: points of their own, copies of those, and copies of others.
fn unused(r: &mut Random) -> Job {
    let way = r.turn(&["front", "behind", "any"]);
    let mut mesh = some_facets(7, r);
    // The last two points have no facet, and come twice.
    mesh.facets.retain(|t| t.iter().all(|&v| v < 5));
    mesh.facets.push([4, 2, 0]);
    let mut order: Vec<usize> = (0..5).collect();
    let without = [5, 6, 5, 6, r.below(5) as usize, r.below(5) as usize];
    for point in without {
        let at = match way {
            "front" => 0,
            "behind" => order.len(),
            _ => r.below(order.len() as u64 + 1) as usize,
        };
        order.insert(at, point);
    }
    // A corner is any vertex of its point, but for those that come again unused: the last of them where it stands in front, else the first.
    let named = |point: u32| {
        let found = |p: &usize| *p == point as usize;
        let at = if way == "front" { order.iter().rposition(found) } else { order.iter().position(found) };
        at.expect("a vertex of each point") as u32
    };
    let facets = mesh.facets.iter().map(|t| t.map(named)).collect();
    let vertices = order.iter().map(|&point| mesh.points[point]).collect();
    with(mesh.grid, vertices, facets, r)
}

/// Vertices that only facets use which go: flat by their numbers, or once merged.
fn used_by_dropped(r: &mut Random) -> Job {
    let way = r.turn(&["numbers", "merged", "both", "nothing-kept"]);
    let mut mesh = some_facets(6, r);
    mesh.facets.retain(|t| t.iter().all(|&v| v < 4) && way != "nothing-kept");
    let mut vertices = mesh.points.clone();
    vertices.extend(&mesh.points);
    let by_numbers = [[4, 4, 0], [1, 5, 5], [4, 5, 4]];
    let once_merged = [[4, 10, 2], [11, 3, 5], [5, 4, 10]];
    match way {
        "numbers" => mesh.facets.extend(by_numbers),
        "merged" => mesh.facets.extend(once_merged),
        _ => mesh.facets.extend([by_numbers, once_merged].concat()),
    }
    shuffle(&mut mesh.facets, r);
    with(mesh.grid, vertices, mesh.facets, r)
}

// How the triangles are listed.

/// Corners apart, and one or two vertices left over: copies of others, or points of their own.
fn no_indices(r: &mut Random) -> Job {
    let (left, own) = r.turn(&[(0, false), (1, false), (2, true), (2, false), (1, true)]);
    let mesh = some_facets(5, r);
    let mut mesh = again(mesh, 2, r);
    shuffle(&mut mesh.facets, r);
    let mut job = apart(plain(mesh, r));
    for _ in 0..left {
        let copy = job.vertices[r.below(job.vertices.len() as u64) as usize];
        job.vertices.push(if own { copy.map(|x| x + 0.0625) } else { copy });
    }
    job
}

/// One or two indices left over: of a vertex that is used, of one that is not, of one alone that is a copy, or of none. They vanish.
fn left_over(r: &mut Random) -> Job {
    let (left, which) = r.turn(&[(1, "none"), (2, "unused"), (2, "none"), (1, "used"), (1, "unused"), (2, "copy"), (2, "used"), (1, "far")]);
    let mut mesh = some_facets(5, r);
    mesh.facets.retain(|t| !t.contains(&4));
    mesh.facets.extend([[0, 1, 2], [2, 1, 0]]);
    let mut job = plain(mesh, r);
    job.vertices.push(job.vertices[1]);
    let n = job.vertices.len() as u32;
    let index = match which {
        "unused" => 4,
        "copy" => n - 1,
        "used" => r.below(3) as u32,
        "none" => n,
        _ => u32::MAX,
    };
    job.indices.as_mut().expect("a list").extend(vec![index; left]);
    job
}

/// No vertices to five, and no triangle, or one: with none of either, with indices that nothing looks at, and with copies.
fn few(r: &mut Random) -> Job {
    let ways: [(usize, Option<&[u32]>); 12] = [
        (0, None),
        (0, Some(&[])),
        (5, Some(&[])),
        (0, Some(&[0, 7])),
        (2, None),
        (1, Some(&[u32::MAX])),
        (5, Some(&[4, 2])),
        (1, None),
        (3, None),
        (5, Some(&[3, 1, 2])),
        (5, None),
        (1, Some(&[0, 0, 0])),
    ];
    let (vertices, indices) = r.turn(&ways);
    let mut mesh = points(5, r);
    mesh.points[4] = mesh.points[0];
    mesh.points.truncate(vertices);
    let mut job = plain(mesh, r);
    job.indices = indices.map(<[u32]>::to_vec);
    (job.queue, job.pops) = r.pick(&[(0, 0), (8, 100)]);
    job
}

// Nothing to do.

/// No point comes again and no facet, and none is flat; every vertex is used.
fn no_repeat(r: &mut Random) -> Job {
    let way = r.turn(&["some", "apart", "hull"]);
    let mut mesh = match way {
        "hull" => hull(r),
        "some" => some_facets(7, r),
        _ => {
            let mut mesh = points(15, r);
            mesh.facets = (0..5).map(|n| [3 * n, 3 * n + 1, 3 * n + 2]).collect();
            mesh
        }
    };
    if way == "some" {
        // The points without a facet go, so that all are used.
        let used: Vec<u32> = (0..7).filter(|v| mesh.facets.iter().any(|t| t.contains(v))).collect();
        mesh.points = used.iter().map(|&v| mesh.points[v as usize]).collect();
        let number = |v: u32| used.iter().position(|&u| u == v).expect("it is used") as u32;
        mesh.facets.iter_mut().for_each(|t| *t = t.map(number));
    }
    shuffle(&mut mesh.facets, r);
    plain(mesh, r)
}

/// What tidying gives: it stays as it is.
fn already(r: &mut Random) -> Job {
    let make = r.turn(&[facets_and_copies as Make, scan, scan_repeats, twins, unused, all_same, few, soup]);
    let job = make(r);
    let tidied = tidy::tidy(&job).expect("a mesh within bounds");
    tidy::kept(&job, &tidied)
}

// What stays as it was said, and what is not looked at.

/// Both lines that need not be there, in each way; room and pops of any size.
fn lines(r: &mut Random) -> Job {
    let mut job = said(r, facets_and_copies);
    job.queue = r.pick(&[0, 1, 7, 2_048]);
    job.pops = r.pick(&[0, 1, 4_294_967_295, 1_000_000_000]);
    job
}

/// A grid out of bounds, of no cells or of sizes and places that are none; a mesh off the grid; no room, no pops, or a distance that is a NaN. It
/// is tidied all the same.
fn any_grid(r: &mut Random) -> Job {
    let way = r.turn(&[1, 10, 2, 3, 4, 5, 6, 7, 8]);
    let mut job = facets_and_copies(r);
    let axis = r.below(3) as usize;
    match way {
        1 | 7 | 8 | 10 => refuse_by(way, &mut job, axis, r),
        2 => job.grid.count = [u32::MAX, 0, u32::MAX],
        3 => job.grid.first[axis] = f32::from_bits(r.pick(&BEYOND)),
        4 => job.grid.size = [f32::NAN, f32::INFINITY, -0.0],
        // Document 01's own: the first cell's centre lies beside a segment whose squared length is 0.
        6 => {
            (job.grid.first, job.grid.size) = ([0.0; 3], [1.0; 3]);
            job.vertices = vec![[0.0; 3], [0.0; 3], [f32::from_bits(27 << 23), 0.0, 0.0]];
            job.indices = Some(vec![0, 1, 2]);
        }
        _ => job.vertices.iter_mut().for_each(|v| v[axis] += 500.0 + job.grid.size[axis]),
    }
    job
}

// What is refused, and the job program's limits.

/// 2, 13 and 4 in each way, alone and beside another; and beside a grid that is refused, or a mesh off it, which nothing looks at.
fn refused(r: &mut Random) -> Job {
    let ways: [&[&str]; 20] = [
        &["vertex"],
        &["strip"],
        &["index"],
        &["unused-vertex"],
        &["strip", "no-indices"],
        &["index-of-flat"],
        &["vertex", "strip"],
        &["strip", "index"],
        &["vertex", "index"],
        &["grid", "index"],
        &["grid", "vertex"],
        &["grid", "strip"],
        &["off-grid", "index"],
        &["copies", "vertex"],
        &["strip", "no-triangle"],
        &["index-of-repeated"],
        &["vertex", "no-triangle"],
        &["unused-vertex", "strip", "index", "grid"],
        &["vertex", "no-indices"],
        &["index", "no-vertices"],
    ];
    let way = r.turn(&ways);
    let mut job = facets_and_copies(r);
    let axis = r.below(3) as usize;
    for what in way {
        let n = job.vertices.len() as u32;
        let beyond = f32::from_bits(r.pick(&BEYOND));
        let bad = r.pick(&[n, n + 1, u32::MAX]);
        match *what {
            "vertex" => job.vertices[1][axis] = beyond,
            "unused-vertex" => {
                let mut vertex = job.vertices[0];
                vertex[axis] = beyond;
                job.vertices.push(vertex);
            }
            // Twice the same NaN, which no merging may hide.
            "copies" => job.vertices.extend([[f32::from_bits(0x7fc0_0000); 3]; 2]),
            "strip" => job.topology = Topology::Strip,
            "no-indices" => job.indices = None,
            "no-triangle" => job.indices = Some(Vec::new()),
            "no-vertices" => job.vertices.clear(),
            "index" => {
                let indices = job.indices.as_mut().expect("a list");
                let at = r.below(indices.len() as u64 / 3 * 3) as usize;
                indices[at] = bad;
            }
            "index-of-flat" => job.indices.as_mut().expect("a list").extend([bad, 0, 0]),
            "index-of-repeated" => job.indices.as_mut().expect("a list").extend([0, 1, bad, 1, bad, 0]),
            "grid" => refuse_by(1, &mut job, axis, r),
            _ => refuse_by(10, &mut job, axis, r),
        }
    }
    job
}

/// Vertices, indices, cells and entries as many as there may be, or one more; and the longest texts.
fn at_limits(r: &mut Random) -> Job {
    let way = r.turn(&[
        "copies",
        "indices",
        "more-vertices",
        "longest",
        "more-indices",
        "apart",
        "strip",
        "cells",
        "flat",
        "more-corners",
        "more-cells",
        "entries",
        "repeated",
        "more-entries",
    ]);
    let mut job = facets_and_copies(r);
    let different = |n: u32| (0..n).map(|i| [i as f32, (i % 16) as f32 - 8.0, 0.5]).collect::<Vec<Point>>();
    match way {
        // Every vertex but sixteen is a copy.
        "copies" => {
            job.vertices = (0..256).map(|_| different(16)[r.below(16) as usize]).collect();
            job.indices = Some((0..300).flat_map(|_| three(256, r)).collect());
        }
        "indices" | "more-indices" => {
            let more = usize::from(way == "more-indices");
            let facets = (0..766).flat_map(|_| three(job.vertices.len(), r));
            job.indices = Some(facets.chain([0; 2].into_iter().take(more)).collect());
        }
        "more-vertices" => job.vertices.resize(257, [0.0; 3]),
        // The longest that can be printed: nothing goes, every number is as long as it may be, and those below 100 come once.
        "longest" => {
            job.grid.count = [u32::MAX, u32::MAX, 0];
            (job.grid.upright, job.sign) = (Some(1), SignMethod::Normal);
            (job.queue, job.pops) = (2_048, u32::MAX);
            job.vertices = different(256);
            let low = (0..100).map(|a| [a, a + 100, a + 150]);
            let high = (1..6).flat_map(|step| (100..255 - 2 * step).map(move |a| [a, a + step, a + 2 * step + 1]));
            job.indices = Some(low.chain(high).take(766).flatten().collect());
        }
        "apart" | "more-corners" => {
            let n = if way == "apart" { 256 } else { 257 };
            job.vertices = (0..n).map(|i| different(9)[[0, 1, 2, 3, 4, 5, 6, 7, 8, 2, 1, 0, 0, 4, 4][i % 15]]).collect();
            job.indices = None;
        }
        "strip" => (job.topology, job.indices) = (Topology::Strip, Some(vec![0; r.pick(&[768, 769])])),
        "cells" => job.grid.count = r.pick(&[[8, 8, 8], [512, 1, 1]]),
        "more-cells" => job.grid.count = r.pick(&[[513, 1, 1], [65_536, 65_536, 1]]),
        "entries" => job.queue = 2_048,
        "more-entries" => job.queue = 2_049,
        // As many drops as there can be: by 1, and by 2.
        "flat" => job.indices = Some((0..2_298).map(|i| [3, 1, 3][i % 3]).collect()),
        _ => job.indices = Some((0..766).flat_map(|i| in_order([2, 0, 1], ORDERS[i % 6])).collect()),
    }
    job
}
