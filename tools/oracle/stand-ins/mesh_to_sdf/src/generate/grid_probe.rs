//! Probe into `generate/grid.rs`: runs its private passes by themselves and shows what they leave, which the
//! whole call does not. It computes nothing of its own.

use super::{compute_raycasts, generate_preheap, AtomicU32, BoundingHierarchy, Bvh, BvhNode, RwLock, Triangle};
use crate::{geo, Grid, Point, SignMethod, Topology};

/// What seeding leaves: for each cell the vertex numbers of its triangle, and the distance.
pub(crate) fn seeding<V: Point>(
    vertices: &[V],
    indices: Topology<u32>,
    grid: &Grid<V>,
    sign_method: SignMethod,
) -> Vec<(Triangle, f32)> {
    let triangles: Vec<Triangle> = Topology::get_triangles(vertices, indices).collect();
    let preheap: Vec<RwLock<(Triangle, f32)>> =
        (0..grid.get_total_cell_count()).map(|_| RwLock::new(((0, 0, 0), f32::MAX))).collect();
    let steps = AtomicU32::new(0);
    generate_preheap(vertices, &triangles, grid, &preheap, sign_method, &steps);
    preheap.into_iter().map(RwLock::into_inner).collect()
}

/// The crossing counts of the ray pass: for each cell those along x, y and z.
pub(crate) fn crossings<V: Point>(vertices: &[V], indices: Topology<u32>, grid: &Grid<V>) -> Vec<[u32; 3]> {
    let mut nodes: Vec<BvhNode<V>> = Topology::get_triangles(vertices, indices)
        .map(|t| BvhNode {
            vertex_indices: t,
            node_index: 0,
            bounding_box: geo::triangle_bounding_box(&vertices[t.0], &vertices[t.1], &vertices[t.2]),
        })
        .collect();
    let bvh = Bvh::build_par(&mut nodes);
    let counts: Vec<[AtomicU32; 3]> = (0..grid.get_total_cell_count()).map(|_| [0, 0, 0].map(AtomicU32::new)).collect();
    let mut distances = vec![0.0; counts.len()];
    compute_raycasts(vertices, grid, &mut distances, &counts, &bvh, &nodes);
    counts.into_iter().map(|c| c.map(AtomicU32::into_inner)).collect()
}
