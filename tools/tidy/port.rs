//! The library's tidying, through the header for C (calls.c). Floats are their bits here, so that none is computed with.

use model::geometry::Point;
use model::grid::Grid;
use model::topology::Topology;
use model::{Job, SignMethod};

extern "C" {
    fn port_tidy_mesh(
        vertices: *const f32,
        coordinate_count: usize,
        topology: u32,
        given: u32,
        indices: *const u32,
        index_count: usize,
        out_coordinates: *mut f32,
        out_coordinate_count: usize,
        out_indices: *mut u32,
        out_index_count: usize,
        firsts: *mut u32,
        firsts_length: usize,
        causes: *mut u32,
        causes_length: usize,
        number: *mut u32,
        kept_vertices: *mut u32,
        kept_triangles: *mut u32,
    );
}

/// The bits of the coordinates, three a vertex, and the indices where they are given.
#[derive(Clone, Default)]
pub struct Mesh {
    pub coordinates: Vec<u32>,
    pub indices: Option<Vec<u32>>,
}

impl Mesh {
    pub fn vertices(&self) -> usize {
        self.coordinates.len() / 3
    }

    /// The triangles of a list: consecutive threes.
    pub fn triangles(&self) -> usize {
        self.indices.as_ref().map_or(self.vertices(), Vec::len) / 3
    }

    /// The same as a job of the model, on no grid and of no edition that anything looks at.
    pub fn job(&self) -> Job {
        let point = |v: &[u32]| -> Point { [v[0], v[1], v[2]].map(f32::from_bits) };
        Job {
            grid: Grid { first: [f32::NAN; 3], size: [0.0; 3], count: [0; 3], upright: None },
            topology: Topology::List,
            sign: SignMethod::Raycast,
            vertices: self.coordinates.chunks_exact(3).map(point).collect(),
            indices: self.indices.clone(),
            queue: 0,
            pops: 0,
            edition: Some(0),
        }
    }
}

#[derive(Clone, Copy, Default, PartialEq, Eq, Debug)]
pub struct Answer {
    pub number: u32,
    pub vertices: u32,
    pub triangles: u32,
}

/// The lent outputs, in the header's order.
#[derive(Clone, Default, PartialEq, Eq)]
pub struct Lent {
    pub coordinates: Vec<u32>,
    pub indices: Vec<u32>,
    pub firsts: Vec<u32>,
    pub causes: Vec<u32>,
}

impl Lent {
    /// As a mesh asks for.
    pub fn fitting(mesh: &Mesh) -> Lent {
        let (n, t) = (mesh.vertices(), mesh.triangles());
        Lent::of([mesh.coordinates.len(), 3 * t, n, t])
    }

    pub fn of([coordinates, indices, firsts, causes]: [usize; 4]) -> Lent {
        Lent { coordinates: vec![0; coordinates], indices: vec![0; indices], firsts: vec![0; firsts], causes: vec![0; causes] }
    }
}

/// The call itself, over any slices. `topology` and `given` are the header's numbers.
pub fn ask(coordinates: &[u32], [topology, given]: [u32; 2], indices: &[u32], lent: [&mut [u32]; 4]) -> Answer {
    let mut answer = Answer::default();
    let [out_coordinates, out_indices, firsts, causes] = lent;
    // SAFETY: every pointer is that of a slice or a number, with the slice's own length; none are shared. A float has the size and the
    // alignment of its bits.
    unsafe {
        port_tidy_mesh(
            coordinates.as_ptr().cast(),
            coordinates.len(),
            topology,
            given,
            indices.as_ptr(),
            indices.len(),
            out_coordinates.as_mut_ptr().cast(),
            out_coordinates.len(),
            out_indices.as_mut_ptr(),
            out_indices.len(),
            firsts.as_mut_ptr(),
            firsts.len(),
            causes.as_mut_ptr(),
            causes.len(),
            &mut answer.number,
            &mut answer.vertices,
            &mut answer.triangles,
        );
    }
    answer
}
