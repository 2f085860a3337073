//! "Bounds on a job" and, in the order of "Reply numbers", what is checked before the run: 1 to 4, with 14 of document 02 between 1
//! and 2, and 13 between 2 and 3; then 10, which document 02 puts before 5.

use crate::geometry::Point;
use crate::grid::{Grid, AXES};
use crate::topology::Topology;
use crate::{topology, Job, Refusal};

const MOST_OF_ONE_COUNT: u32 = 1_024;
const MOST_CELLS: u128 = 1_048_576;
const LARGEST_COORDINATE: f32 = 1_048_576.0;
const SMALLEST_SIZE: f32 = 1.0 / 1_024.0;
const LARGEST_SIZE: f32 = 1_024.0;
const LAST_AXIS: u32 = 2;
const EDITIONS: [u32; 2] = [1, 2];
const MOST_VERTICES: usize = 393_216;
const MOST_TRIANGLES: usize = 131_072;

pub fn check(job: &Job) -> Result<(), Refusal> {
    if !grid_in_bounds(job) {
        return Err(1);
    }
    // Document 02, §11: any other edition.
    if !EDITIONS.contains(&job.edition()) {
        return Err(14);
    }
    let triangles = mesh(job)?;
    // Document 02, §6: no triangles off the grid. What no triangle uses may lie anywhere.
    if triangles.iter().any(|t| off_grid(&job.grid, t.map(|v| job.vertices[v as usize]))) {
        return Err(10);
    }
    Ok(())
}

/// What is checked of the mesh alone, whatever the grid: 2, 13, 3 and 4. The triangles of a mesh that passes.
pub fn mesh(job: &Job) -> Result<Vec<[u32; 3]>, Refusal> {
    if job.vertices.len() > MOST_VERTICES || !job.vertices.iter().flatten().all(|&x| coordinate_in_bounds(x)) {
        return Err(2);
    }
    // Document 02, §7: strips are withdrawn, whether or not they have indices or a triangle.
    if job.topology == Topology::Strip {
        return Err(13);
    }
    let triangles = topology::triangles(job);
    if triangles.len() > MOST_TRIANGLES {
        return Err(3);
    }
    if !triangles.iter().flatten().all(|&index| (index as usize) < job.vertices.len()) {
        return Err(4);
    }
    Ok(triangles)
}

/// On some axis all three corners lie below the grid box's minimum, or all three above its maximum. They are the corners
/// themselves, without what the triangle's box adds. One that touches the side is neither below nor above. No NaN comes here:
/// it is refused by 1 or 2.
pub fn off_grid(grid: &Grid, corners: [Point; 3]) -> bool {
    let (low, high) = (grid.box_minimum(), grid.box_maximum());
    AXES.iter().any(|&axis| {
        let at = corners.map(|corner| corner[axis]);
        at.iter().all(|&x| x < low[axis]) || at.iter().all(|&x| x > high[axis])
    })
}

fn grid_in_bounds(job: &Job) -> bool {
    let grid = &job.grid;
    grid.count.iter().all(|&n| (1..=MOST_OF_ONE_COUNT).contains(&n))
        && cells(grid.count) <= MOST_CELLS
        && grid.first.iter().all(|&x| coordinate_in_bounds(x))
        && grid.size.iter().all(|&s| (SMALLEST_SIZE..=LARGEST_SIZE).contains(&s))
        // Document 02, §9: x, y or z. A text has no other.
        && grid.upright() <= LAST_AXIS
}

/// The product of the counts, whatever they are.
pub fn cells(count: [u32; 3]) -> u128 {
    count.iter().map(|&n| u128::from(n)).product()
}

/// Finite, magnitude at most 1,048,576.
fn coordinate_in_bounds(x: f32) -> bool {
    x.is_finite() && x.abs() <= LARGEST_COORDINATE
}
