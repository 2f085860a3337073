//! "The run, from document 000", with reply numbers 6 to 8 in the order in which the run meets them. With the Normal signs of document 02,
//! §8, the distances have their signs from the start, and no ray is cast. The rows are those of the job's edition of the layer table (§11).

use crate::geometry::{self, Point, Reply};
use crate::grid::{floor, Grid, AXES};
use crate::{order, topology, Done, Job, Refusal, SignMethod, NONE};
use std::cmp::Ordering;
use std::collections::BTreeSet;

/// The job and its triangles, and what they have led to so far.
struct Run<'a> {
    job: &'a Job,
    grid: &'a Grid,
    /// Vertex numbers and corners of each triangle.
    triples: Vec<[u32; 3]>,
    corners: Vec<[Point; 3]>,
    /// What each cell holds: f32::MAX and no name at first.
    field: Vec<f32>,
    names: Vec<u32>,
    waiting: BTreeSet<Entry>,
    pops: u32,
    peak: u32,
}

pub fn run(job: &Job) -> Result<Done, Refusal> {
    let mut run = Run::begin(job);
    run.seeding()?;
    run.queueing()?;
    run.spreading()?;
    let (crossings, grazed) = match job.sign {
        SignMethod::Raycast => run.rays(),
        // No rays: the crossings are left zero, and nothing is negated for them.
        SignMethod::Normal => (vec![[0; 3]; run.field.len()], 0),
    };
    run.signs(&crossings);
    let rows = run.rows();
    Ok(Done { pops: run.pops, peak: run.peak, grazed, field: run.field, names: run.names, crossings, rows })
}

/// A waiting entry: its cell held this triangle at this distance when it was queued.
#[derive(Clone, Copy)]
struct Entry {
    distance: f32,
    cell: u32,
    triple: [u32; 3],
    triangle: u32,
}

/// The entry with the smallest magnitude is taken; equal: a positive one before a negative (document 02, §8); equal: the larger cell; equal:
/// the larger triple of vertex numbers. What is taken earlier is less. Without signs this is document 01's order by distance.
impl Ord for Entry {
    fn cmp(&self, other: &Entry) -> Ordering {
        let magnitude = |entry: &Entry| entry.distance.abs().to_bits();
        magnitude(self)
            .cmp(&magnitude(other))
            .then(self.distance.is_sign_negative().cmp(&other.distance.is_sign_negative()))
            .then(other.cell.cmp(&self.cell))
            .then(other.triple.cmp(&self.triple))
    }
}
impl PartialOrd for Entry {
    fn partial_cmp(&self, other: &Entry) -> Option<Ordering> {
        Some(self.cmp(other))
    }
}
impl PartialEq for Entry {
    fn eq(&self, other: &Entry) -> bool {
        self.cmp(other) == Ordering::Equal
    }
}
impl Eq for Entry {}

impl<'a> Run<'a> {
    fn begin(job: &'a Job) -> Run<'a> {
        let cells = job.grid.cells() as usize;
        let triples = topology::triangles(job);
        let corners = triples.iter().map(|t| t.map(|v| job.vertices[v as usize])).collect();
        Run {
            job,
            grid: &job.grid,
            triples,
            corners,
            field: vec![f32::MAX; cells],
            names: vec![NONE; cells],
            waiting: BTreeSet::new(),
            pops: 0,
            peak: 0,
        }
    }

    /// 1. Seeding. Triangles in order; each cell of the snapped box is offered the triangle.
    fn seeding(&mut self) -> Result<(), Refusal> {
        for triangle in 0..self.triples.len() {
            let (from, to) = self.snapped_box(triangle);
            for x in from[0]..=to[0] {
                for y in from[1]..=to[1] {
                    for z in from[2]..=to[2] {
                        self.offer(triangle as u32, [x, y, z])?;
                    }
                }
            }
        }
        Ok(())
    }

    /// The first and the last cell of a triangle's box on each axis.
    fn snapped_box(&self, triangle: usize) -> ([u32; 3], [u32; 3]) {
        let (low, high) = geometry::triangle_box(self.corners[triangle]);
        let (mut first, _) = self.grid.snap(low);
        let (mut last, _) = self.grid.snap(high);
        for axis in AXES {
            if first[axis] > 0 && self.grid.centre_on(axis, first[axis]) > low[axis] {
                first[axis] -= 1;
            }
            if last[axis] < self.grid.count[axis] - 1 && self.grid.centre_on(axis, last[axis]) < high[axis] {
                last[axis] += 1;
            }
        }
        (first, last)
    }

    /// A cell takes the triangle if its distance is smaller than what it holds, by the order of two distances, in full. Says whether it
    /// took it. Number 6 at each distance.
    fn offer(&mut self, triangle: u32, cell: [u32; 3]) -> Result<bool, Refusal> {
        let (centre, corners) = (self.grid.centre(cell), self.corners[triangle as usize]);
        let distance = match self.job.sign {
            SignMethod::Raycast => geometry::distance(centre, corners),
            SignMethod::Normal => geometry::point_triangle_signed_distance(centre, corners),
        };
        if distance.is_nan() {
            return Err(6);
        }
        let index = self.grid.index(cell) as usize;
        let smaller = order::compare(distance, self.field[index]) == Ordering::Less;
        if smaller {
            self.field[index] = distance;
            self.names[index] = triangle;
        }
        Ok(smaller)
    }

    /// 2. Queueing, by cell index: each cell below f32::MAX is one entry.
    fn queueing(&mut self) -> Result<(), Refusal> {
        for cell in 0..self.grid.cells() {
            if self.field[cell as usize] < f32::MAX {
                self.queue(cell)?;
            }
        }
        Ok(())
    }

    /// Queues what the cell holds. Number 7 at each queueing.
    fn queue(&mut self, cell: u32) -> Result<(), Refusal> {
        if self.waiting.len() as u64 == u64::from(self.job.queue) {
            return Err(7);
        }
        let triangle = self.names[cell as usize];
        let triple = self.triples[triangle as usize];
        let entry = Entry { distance: self.field[cell as usize], cell, triple, triangle };
        assert!(self.waiting.insert(entry), "two waiting entries never agree in distance and cell");
        self.peak = self.peak.max(self.waiting.len() as u32);
        Ok(())
    }

    /// 3. Spreading. The entry taken offers its triangle to the cells around, itself included; a cell that takes
    /// it queues an entry. Number 8 before each pop.
    fn spreading(&mut self) -> Result<(), Refusal> {
        while !self.waiting.is_empty() {
            if self.pops == self.job.pops {
                return Err(8);
            }
            let entry = self.waiting.pop_first().expect("an entry waits");
            self.pops += 1;
            for cell in self.around(entry.cell) {
                if self.offer(entry.triangle, cell)? {
                    self.queue(self.grid.index(cell))?;
                }
            }
        }
        Ok(())
    }

    /// The cells around, itself included: 27 steps from (−1,−1,−1) to (1,1,1), z fastest, within the grid.
    fn around(&self, cell: u32) -> Vec<[u32; 3]> {
        let at = self.grid.coordinates(cell);
        let mut found = Vec::new();
        for step in (-1..=1).flat_map(|x| (-1..=1).flat_map(move |y| (-1..=1).map(move |z| [x, y, z]))) {
            let to = AXES.map(|axis| i64::from(at[axis]) + step[axis]);
            if AXES.iter().all(|&axis| 0 <= to[axis] && to[axis] < i64::from(self.grid.count[axis])) {
                found.push(to.map(|n| n as u32));
            }
        }
        found
    }

    /// 4. Signs: the crossing counts. For each starting cell of the faces x=0, y=0, z=0 a ray runs along that axis
    /// against all triangles; a hit at t adds one at each cell of the line up to number floor(t / size). Beside them the total
    /// of document 02, §3: how many rays and triangles, taken together, graze. It adds no crossing.
    fn rays(&self) -> (Vec<[u32; 3]>, u64) {
        let mut counts = vec![[0; 3]; self.field.len()];
        let mut grazed = 0;
        for axis in AXES {
            for index in 0..self.grid.cells() {
                let start = self.grid.coordinates(index);
                if start[axis] != 0 {
                    continue;
                }
                for corners in &self.corners {
                    match geometry::ray(self.grid.centre(start), *corners, axis) {
                        Reply::Miss => {}
                        Reply::Grazed => grazed += 1,
                        Reply::Hit(t) => {
                            let reach = floor(t / self.grid.size[axis]);
                            for number in (0..self.grid.count[axis]).filter(|&n| i64::from(n) <= reach) {
                                let mut cell = start;
                                cell[axis] = number;
                                counts[self.grid.index(cell) as usize][axis] += 1;
                            }
                        }
                    }
                }
            }
        }
        (counts, grazed)
    }

    /// A cell with two or three odd counts has its distance negated; 0 becomes −0.
    fn signs(&mut self, crossings: &[[u32; 3]]) {
        for (distance, counts) in self.field.iter_mut().zip(crossings) {
            if counts.iter().filter(|&n| n % 2 == 1).count() >= 2 {
                *distance = -*distance;
            }
        }
    }

    /// Row n: what the cells of layer n, along the upright axis, count together (document 02, §9).
    fn rows(&self) -> Vec<u32> {
        let mut rows = vec![0; self.grid.layers() as usize];
        for index in 0..self.grid.cells() {
            rows[self.grid.layer(index) as usize] += counts(self.job.edition(), self.field[index as usize]);
        }
        rows
    }
}

/// What a cell counts. In edition 1 of the table: 1 if its sign bit is set, -0 too (document 02, §2). In edition 2, in half cells (§11): 2 for a
/// set sign bit and a magnitude above zero, 1 for magnitude zero with either sign, 0 otherwise.
pub fn counts(edition: u32, distance: f32) -> u32 {
    let inside = distance.is_sign_negative();
    match edition {
        1 => u32::from(inside),
        _ if distance.abs() == 0.0 => 1,
        _ => 2 * u32::from(inside),
    }
}
