//! Stand-in for the source's `generate/generic/rtree.rs`, which is not supplied.
//!
//! Why it cannot change the field: `generate_grid_sdf` never calls it. It stops if it is called all the same.

use crate::{Point, Topology};

pub fn generate_sdf_rtree<V: Point, I: Copy + Into<u32> + Sync + Send>(
    _vertices: &[V],
    _indices: Topology<I>,
    _query_points: &[V],
) -> Vec<f32> {
    unreachable!("not part of the grid half")
}
