//! Stand-in for the crate `nalgebra`, which cannot be had here.
//!
//! Why it cannot change the field: the grid half makes a point and a direction of it, to ask the hierarchy for
//! candidates, and boxes to build the hierarchy from. The stand-in of `bvh` drops all of them. Distances and
//! ray tests use the source's own trait `Point` on `[f32; 3]`. The arithmetic below serves `bvh_ext.rs`, which
//! the grid half does not call.

use std::ops::{Add, Mul, Sub};

/// The number of coordinates, as a type.
pub struct Const<const D: usize>;

/// The coordinates that a dimension has.
pub trait Dimension<T> {
    type Coordinates;
}
impl<T, const D: usize> Dimension<T> for Const<D> {
    type Coordinates = [T; D];
}

pub struct OPoint<T, D: Dimension<T>> {
    pub coords: D::Coordinates,
}
pub type Point3<T> = OPoint<T, Const<3>>;

#[derive(Clone, Copy)]
pub struct Vector3<T>([T; 3]);

impl Clone for OPoint<f32, Const<3>> {
    fn clone(&self) -> Self {
        *self
    }
}
impl Copy for OPoint<f32, Const<3>> {}

impl OPoint<f32, Const<3>> {
    pub fn new(x: f32, y: f32, z: f32) -> Self {
        Self { coords: [x, y, z] }
    }
}

impl Vector3<f32> {
    pub fn new(x: f32, y: f32, z: f32) -> Self {
        Self([x, y, z])
    }
    pub fn map(self, f: impl FnMut(f32) -> f32) -> Self {
        Self(self.0.map(f))
    }
    pub fn abs(self) -> Self {
        self.map(f32::abs)
    }
    pub fn component_mul(&self, other: &Self) -> Self {
        Self(each(self.0, other.0, |a, b| a * b))
    }
    pub fn norm(self) -> f32 {
        self.0.iter().map(|a| a * a).sum::<f32>().sqrt()
    }
}

fn each(a: [f32; 3], b: [f32; 3], f: impl Fn(f32, f32) -> f32) -> [f32; 3] {
    [f(a[0], b[0]), f(a[1], b[1]), f(a[2], b[2])]
}

impl Sub for Point3<f32> {
    type Output = Vector3<f32>;
    fn sub(self, other: Self) -> Vector3<f32> {
        Vector3(each(self.coords, other.coords, |a, b| a - b))
    }
}
impl Add<Vector3<f32>> for Point3<f32> {
    type Output = Self;
    fn add(self, other: Vector3<f32>) -> Self {
        Self { coords: each(self.coords, other.0, |a, b| a + b) }
    }
}
impl Sub for Vector3<f32> {
    type Output = Self;
    fn sub(self, other: Self) -> Self {
        Self(each(self.0, other.0, |a, b| a - b))
    }
}
impl Mul<f32> for Vector3<f32> {
    type Output = Self;
    fn mul(self, factor: f32) -> Self {
        self.map(|a| a * factor)
    }
}
