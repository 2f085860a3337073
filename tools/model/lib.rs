//! A plain model of a whole job, written from document 01 and from those requests of document 02 that have landed. One file for
//! each section of document 01:
//!
//!   text.rs       One job, one listing
//!   convert.rs    The converter of old jobs, of document 02, §7
//!   tidy.rs       The tidier of meshes, of document 02, §10
//!   bounds.rs     Bounds on a job; Reply numbers 1 to 4, and 14, 13 and 10 of document 02
//!   grid.rs       Grid, with the upright axis of document 02, §9
//!   geometry.rs   Geometry, and the steps on points of "What is carried over"
//!   order.rs      Order of two distances
//!   topology.rs   Topology
//!   run.rs        The run; Reply numbers 6 to 8; the Normal signs of document 02, §8, and the two editions of its layer table, §11
//!
//! Nothing here is meant to be fast. Every f32 operation below is one of IEEE 754 binary32, rounded once: that is
//! what Rust gives. Reply number 5 speaks of lent buffers; a job's text lends none, so it cannot occur.

pub mod bounds;
pub mod convert;
pub mod geometry;
pub mod grid;
pub mod order;
pub mod run;
pub mod text;
pub mod tidy;
pub mod topology;

use geometry::Point;
use grid::Grid;
use topology::Topology;

/// A job, as its text gives it.
#[derive(Clone)]
pub struct Job {
    pub grid: Grid,
    pub topology: Topology,
    pub sign: SignMethod,
    pub vertices: Vec<Point>,
    pub indices: Option<Vec<u32>>,
    /// Queue room: how many entries may wait at once.
    pub queue: u32,
    /// Pop limit: how many entries may be taken.
    pub pops: u32,
    /// The edition of the layer table, where it is said (document 02, §11). Where it is not it is 1: a text may do either, and one that is printed
    /// again keeps what it says. Any number can be said.
    pub edition: Option<u32>,
}

impl Job {
    /// The edition of the layer table, said or not.
    pub fn edition(&self) -> u32 {
        self.edition.unwrap_or(1)
    }
}

/// How a cell's sign is had (document 02, §8): by rays that count crossings, or by the side of the named triangle on which its centre lies.
#[derive(Clone, Copy, PartialEq, Eq, Debug)]
pub enum SignMethod {
    Raycast,
    Normal,
}

/// The number of a refusal: 1 to 9 of document 01, and from 10 on those of document 02.
pub type Refusal = u32;

/// The name of a cell that took no triangle.
pub const NONE: u32 = 4_294_967_295;

/// What is given for a job that is done.
pub struct Done {
    pub pops: u32,
    pub peak: u32,
    /// How many rays and triangles, taken together, graze.
    pub grazed: u64,
    /// Distance and named triangle of each cell.
    pub field: Vec<f32>,
    pub names: Vec<u32>,
    /// Crossing counts along x, y, z of each cell; with Normal signs all are zero.
    pub crossings: Vec<[u32; 3]>,
    /// What the cells of each layer along the upright axis count together, in the job's edition of the table.
    pub rows: Vec<u32>,
}

/// The answer to a job: the first number that applies, or Done.
pub fn answer(job: &Job) -> Result<Done, Refusal> {
    bounds::check(job)?;
    run::run(job)
}
