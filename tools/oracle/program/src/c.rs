//! The same for C, so that a library can be held to the Rust step by step in one process. See mesh_oracle.h.
//!
//! Each function answers 0, or 1 where the Rust panics; `oracle_panic_words` then gives its words. Points are
//! three floats in a row. Pointers are the caller's duty: they name as many numbers as the header says.

#![allow(clippy::missing_safety_doc)]

use crate::{begin, crossings, get_triangles, guarded, rows, run_in, seeding, Lent, Order, Sign};
use mesh_to_sdf::{probe, Grid, SnapResult};
use std::slice::{from_raw_parts, from_raw_parts_mut};
use std::sync::Mutex;

type P = [f32; 3];

static WORDS: Mutex<String> = Mutex::new(String::new());

/// A grid as C lends it.
#[repr(C)]
pub struct OracleGrid {
    pub first: P,
    pub size: P,
    pub count: [u32; 3],
}

/// A mesh as C lends it. `indices` null: none.
#[repr(C)]
pub struct OracleMesh {
    pub coordinates: *const P,
    pub vertices: usize,
    pub indices: *const u32,
    pub index_count: usize,
    pub strip: u32,
}

impl OracleGrid {
    fn rust(&self) -> Grid<P> {
        Grid::new(self.first, self.size, self.count.map(|n| n as usize))
    }
}

impl OracleMesh {
    /// The job of this mesh on the grid, and the order of its queue.
    unsafe fn on(&self, grid: &OracleGrid, sign: u32) -> (Lent<'_>, Order) {
        let OracleGrid { first, size, count } = *grid;
        let vertices = if self.vertices == 0 { &[] } else { from_raw_parts(self.coordinates, self.vertices) };
        let indices = (!self.indices.is_null()).then(|| from_raw_parts(self.indices, self.index_count));
        let (sign, order) = match sign {
            0 => (Sign::Raycast, Order::Source),
            1 => (Sign::Normal, Order::Document),
            _ => (Sign::Normal, Order::Source),
        };
        let strip = self.strip != 0;
        (Lent { count, first, size, upright: NO_AXIS, strip, sign, vertices, indices, edition: NO_EDITION }, order)
    }
}

/// The Rust's grid has no upright axis, and the Rust no editions of a table: what asks for rows says both by itself.
const NO_AXIS: u32 = 3;
const NO_EDITION: u32 = 0;

/// For what depends on the mesh alone.
const NO_GRID: OracleGrid = OracleGrid { first: [0.0; 3], size: [1.0; 3], count: [1; 3] };

/// Writes the answer where it is to go, or keeps the words of the panic.
fn reply<T>(answer: Result<T, String>, write: impl FnOnce(T)) -> i32 {
    match answer {
        Ok(value) => {
            write(value);
            0
        }
        Err(words) => {
            *WORDS.lock().unwrap() = words;
            1
        }
    }
}

#[no_mangle]
pub unsafe extern "C" fn oracle_panic_words(buffer: *mut u8, room: usize) -> usize {
    let words = WORDS.lock().unwrap();
    let n = words.len().min(room);
    from_raw_parts_mut(buffer, n).copy_from_slice(&words.as_bytes()[..n]);
    n
}

// The whole job and its passes.

#[no_mangle]
pub unsafe extern "C" fn oracle_job(
    grid: &OracleGrid,
    mesh: &OracleMesh,
    sign: u32,
    field: *mut f32,
    steps: &mut u32,
    times: &mut [f64; 3],
) -> i32 {
    let (job, order) = mesh.on(grid, sign);
    reply(run_in(order, job), |answer| {
        from_raw_parts_mut(field, answer.field.len()).copy_from_slice(&answer.field);
        *steps = answer.steps;
        *times = answer.times;
    })
}

#[no_mangle]
pub unsafe extern "C" fn oracle_seeding(
    grid: &OracleGrid,
    mesh: &OracleMesh,
    sign: u32,
    distances: *mut f32,
    triples: *mut [u32; 3],
) -> i32 {
    reply(seeding(mesh.on(grid, sign).0), |cells| {
        for (i, ((a, b, c), distance)) in cells.into_iter().enumerate() {
            *distances.add(i) = distance;
            *triples.add(i) = [a as u32, b as u32, c as u32];
        }
    })
}

#[no_mangle]
pub unsafe extern "C" fn oracle_crossings(grid: &OracleGrid, mesh: &OracleMesh, counts: *mut [u32; 3]) -> i32 {
    reply(crossings(mesh.on(grid, 0).0), |cells| {
        from_raw_parts_mut(counts, cells.len()).copy_from_slice(&cells);
    })
}

/// Not the Rust's own: it answers a number of the documents, 0, 1, 14 or 5.
#[no_mangle]
pub unsafe extern "C" fn oracle_rows(
    grid: &OracleGrid,
    upright: u32,
    edition: u32,
    field: *const f32,
    counts: *mut u32,
    length: usize,
) -> u32 {
    let OracleGrid { first, size, count } = *grid;
    let job = Lent { count, first, size, upright, strip: false, sign: Sign::Raycast, vertices: &[], indices: None, edition };
    let cells = count.iter().map(|&n| n as usize).product();
    match rows(job, from_raw_parts(field, cells)) {
        Err(number) => number,
        Ok(rows) if rows.len() != length => 5,
        Ok(rows) => {
            from_raw_parts_mut(counts, length).copy_from_slice(&rows);
            0
        }
    }
}

#[no_mangle]
pub unsafe extern "C" fn oracle_get_triangles(
    mesh: &OracleMesh,
    triples: *mut [u32; 3],
    room: usize,
    triangles: &mut usize,
) -> i32 {
    reply(get_triangles(mesh.on(&NO_GRID, 0).0), |list| {
        *triangles = list.len();
        for (i, (a, b, c)) in list.into_iter().take(room).enumerate() {
            *triples.add(i) = [a as u32, b as u32, c as u32];
        }
    })
}

// Geometry and the order of two distances.

#[no_mangle]
pub extern "C" fn oracle_point_triangle_distance(p: &P, a: &P, b: &P, c: &P, distance: &mut f32) -> i32 {
    reply(guarded(|| probe::point_triangle_distance(p, a, b, c)), |d| *distance = d)
}

#[no_mangle]
pub extern "C" fn oracle_point_triangle_signed_distance(p: &P, a: &P, b: &P, c: &P, distance: &mut f32) -> i32 {
    reply(guarded(|| probe::point_triangle_signed_distance(p, a, b, c)), |d| *distance = d)
}

#[no_mangle]
pub extern "C" fn oracle_closest_point_triangle(p: &P, a: &P, b: &P, c: &P, closest: &mut P) -> i32 {
    reply(guarded(|| probe::closest_point_triangle(p, a, b, c)), |q| *closest = q)
}

#[no_mangle]
pub extern "C" fn oracle_closest_point_segment(p: &P, a: &P, b: &P, closest: &mut P) -> i32 {
    reply(guarded(|| probe::closest_point_segment(p, a, b)), |q| *closest = q)
}

#[no_mangle]
pub extern "C" fn oracle_triangle_bounding_box(a: &P, b: &P, c: &P, low: &mut P, high: &mut P) -> i32 {
    reply(guarded(|| probe::triangle_bounding_box(a, b, c)), |b| (*low, *high) = b)
}

#[no_mangle]
pub extern "C" fn oracle_ray_triangle_intersection_aligned(
    origin: &P,
    a: &P,
    b: &P,
    c: &P,
    axis: u32,
    hit: &mut u32,
    t: &mut f32,
) -> i32 {
    reply(guarded(|| probe::ray_triangle_intersection_aligned(origin, [a, b, c], axis)), |answer| {
        *hit = u32::from(answer.is_some());
        *t = answer.unwrap_or(0.0);
    })
}

/// The order as a number: below 0 less, 0 equal, above 0 greater.
#[no_mangle]
pub extern "C" fn oracle_compare_distances(a: f32, b: f32, order: &mut i32) -> i32 {
    reply(guarded(|| probe::compare_distances(a, b)), |o| *order = o as i32)
}

// The grid.

#[no_mangle]
pub extern "C" fn oracle_snap_point_to_grid(
    grid: &OracleGrid,
    point: &P,
    inside: &mut u32,
    cell: &mut [u32; 3],
) -> i32 {
    reply(guarded(|| grid.rust().snap_point_to_grid(point)), |snap| {
        let (is_inside, at) = match snap {
            SnapResult::Inside(at) => (1, at),
            SnapResult::Outside(at) => (0, at),
        };
        *inside = is_inside;
        *cell = at.map(|n| n as u32);
    })
}

#[no_mangle]
pub extern "C" fn oracle_get_cell_center(grid: &OracleGrid, cell: &[u32; 3], centre: &mut P) -> i32 {
    let cell = cell.map(|n| n as usize);
    reply(guarded(|| grid.rust().get_cell_center(&cell)), |c| *centre = c)
}

#[no_mangle]
pub extern "C" fn oracle_get_bounding_box(grid: &OracleGrid, low: &mut P, high: &mut P) -> i32 {
    reply(guarded(|| grid.rust().get_bounding_box()), |b| (*low, *high) = b)
}

#[no_mangle]
pub extern "C" fn oracle_get_last_cell(grid: &OracleGrid, last: &mut P) -> i32 {
    reply(guarded(|| grid.rust().get_last_cell()), |l| *last = l)
}

#[no_mangle]
pub extern "C" fn oracle_get_cell_idx(grid: &OracleGrid, cell: &[u32; 3], index: &mut u64) -> i32 {
    let cell = cell.map(|n| n as usize);
    reply(guarded(|| grid.rust().get_cell_idx(&cell)), |i| *index = i as u64)
}

#[no_mangle]
pub extern "C" fn oracle_get_cell_integer_coordinates(grid: &OracleGrid, index: u64, cell: &mut [u32; 3]) -> i32 {
    let found = guarded(|| grid.rust().get_cell_integer_coordinates(index as usize));
    reply(found, |at| *cell = at.map(|n| n as u32))
}

#[no_mangle]
pub extern "C" fn oracle_from_bounding_box(low: &P, high: &P, count: &[u32; 3], grid: &mut OracleGrid) -> i32 {
    let made = guarded(|| Grid::from_bounding_box(low, high, count.map(|n| n as usize)));
    reply(made, |g| {
        *grid = OracleGrid { first: g.get_first_cell(), size: g.get_cell_size(), count: *count };
    })
}

/// Makes the first call's time like that of the others: starts the one thread and the listener.
#[no_mangle]
pub extern "C" fn oracle_begin() {
    begin();
}
