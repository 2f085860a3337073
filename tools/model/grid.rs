//! "Grid, from document 002". Written over one axis where the three are alike.

use crate::geometry::Point;

#[derive(Clone)]
pub struct Grid {
    /// Centre of the first cell.
    pub first: Point,
    pub size: Point,
    pub count: [u32; 3],
    /// The number of the upright axis, 0 x, 1 y, 2 z, where it is said (document 02, §9). Where it is not it is z: a text may do either, and
    /// one that is printed again keeps what it says.
    pub upright: Option<u32>,
}

pub const AXES: [usize; 3] = [0, 1, 2];

impl Grid {
    pub fn cells(&self) -> u32 {
        self.count[0] * self.count[1] * self.count[2]
    }

    /// The upright axis, said or not.
    pub fn upright(&self) -> u32 {
        self.upright.unwrap_or(2)
    }

    /// How many layers there are, one above the other: the count of the upright axis.
    pub fn layers(&self) -> u32 {
        self.count[self.upright() as usize]
    }

    /// The layer that a cell is of: its number on the upright axis.
    pub fn layer(&self, index: u32) -> u32 {
        self.coordinates(index)[self.upright() as usize]
    }

    /// Index of (x, y, z): z + y·nz + x·ny·nz.
    pub fn index(&self, [x, y, z]: [u32; 3]) -> u32 {
        let [_, ny, nz] = self.count;
        z + y * nz + x * ny * nz
    }

    /// The way back.
    pub fn coordinates(&self, index: u32) -> [u32; 3] {
        let [_, ny, nz] = self.count;
        [index / nz / ny, index / nz % ny, index % nz]
    }

    /// Centre on an axis: first + (i as f32)·size.
    pub fn centre_on(&self, axis: usize, i: u32) -> f32 {
        self.first[axis] + i as f32 * self.size[axis]
    }

    pub fn centre(&self, cell: [u32; 3]) -> Point {
        AXES.map(|axis| self.centre_on(axis, cell[axis]))
    }

    /// Box minimum: first − size·0.5.
    pub fn box_minimum(&self) -> Point {
        AXES.map(|axis| self.first[axis] - self.size[axis] * 0.5)
    }

    /// Maximum: that + (count as f32)·size.
    pub fn box_maximum(&self) -> Point {
        AXES.map(|axis| self.box_minimum()[axis] + self.count[axis] as f32 * self.size[axis])
    }

    /// `get_last_cell`: first + count·size, one cell further than its comment says.
    pub fn last_cell(&self) -> Point {
        AXES.map(|axis| self.first[axis] + self.count[axis] as f32 * self.size[axis])
    }

    /// `from_bounding_box`, before its bounds are looked at. Its upright axis is z.
    pub fn from_bounding_box(min: Point, max: Point, count: [u32; 3]) -> Grid {
        let size = AXES.map(|axis| (max[axis] - min[axis]) / count[axis] as f32);
        let first = AXES.map(|axis| min[axis] + size[axis] * 0.5);
        Grid { first, size, count, upright: Some(2) }
    }

    /// Snap: the nearest cell, and whether the point is Inside (no axis was clamped).
    pub fn snap(&self, point: Point) -> ([u32; 3], bool) {
        let floors = AXES.map(|axis| floor((point[axis] - self.box_minimum()[axis]) / self.size[axis]));
        let clamped = AXES.map(|axis| floors[axis].clamp(0, i64::from(self.count[axis]) - 1));
        (clamped.map(|n| n as u32), clamped == floors)
    }
}

/// Floor as a signed whole number that saturates at the ends of the 64-bit range; a NaN gives 0.
pub fn floor(quotient: f32) -> i64 {
    quotient.floor() as i64
}
