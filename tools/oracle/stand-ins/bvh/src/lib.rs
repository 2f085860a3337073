//! Stand-in for the crate `bvh`, which cannot be had here.
//!
//! Why it cannot change the field: the grid half asks the hierarchy one thing alone, `traverse`, for the
//! triangles that a ray may meet. This one answers "every triangle", which is what document 01 decides
//! (`bvh.traverse`: every triangle). Each candidate is then put to the source's own ray test, so a candidate
//! too many adds nothing; only a candidate too few could. Boxes and nodes are here for `bvh_ext.rs` and
//! `generic/bvh.rs` to compile; the grid half never reads them.

pub mod aabb {
    /// A box. Made by the source, read only by `bvh_ext.rs`, which the grid half does not call.
    pub struct Aabb<T, const D: usize> {
        pub min: nalgebra::OPoint<T, nalgebra::Const<D>>,
        pub max: nalgebra::OPoint<T, nalgebra::Const<D>>,
    }

    impl Aabb<f32, 3> {
        pub fn with_bounds(min: nalgebra::Point3<f32>, max: nalgebra::Point3<f32>) -> Self {
            Self { min, max }
        }
        pub fn size(&self) -> nalgebra::Vector3<f32> {
            self.max - self.min
        }
        pub fn center(&self) -> nalgebra::Point3<f32> {
            self.min + self.size() * 0.5
        }
    }

    pub trait Bounded<T, const D: usize> {
        fn aabb(&self) -> Aabb<T, D>;
    }
}

pub mod bounding_hierarchy {
    /// A shape that the hierarchy may number. The numbers are never read by the grid half.
    pub trait BHShape<T, const D: usize>: crate::aabb::Bounded<T, D> {
        fn set_bh_node_index(&mut self, index: usize);
        fn bh_node_index(&self) -> usize;
    }

    pub trait BoundingHierarchy<T, const D: usize> {
        fn build_par<Shape: BHShape<T, D> + Send>(shapes: &mut [Shape]) -> Self;
    }
}

pub mod ray {
    /// A ray. Every triangle is a candidate for each, so nothing of it is kept.
    pub struct Ray;

    impl Ray {
        pub fn new(_origin: nalgebra::Point3<f32>, _direction: nalgebra::Vector3<f32>) -> Self {
            Self
        }
    }
}

pub mod bvh {
    use crate::{aabb::Aabb, bounding_hierarchy::BHShape, bounding_hierarchy::BoundingHierarchy, ray::Ray};

    /// The two cases that `bvh_ext.rs` tells apart. None is ever made.
    pub enum BvhNode<T, const D: usize> {
        Node { child_l_aabb: Aabb<T, D>, child_l_index: usize, child_r_aabb: Aabb<T, D>, child_r_index: usize },
        Leaf { shape_index: usize },
    }

    pub struct Bvh<T, const D: usize> {
        pub nodes: Vec<BvhNode<T, D>>,
    }

    impl<T, const D: usize> BoundingHierarchy<T, D> for Bvh<T, D> {
        fn build_par<Shape: BHShape<T, D> + Send>(_shapes: &mut [Shape]) -> Self {
            Self { nodes: Vec::new() }
        }
    }

    impl<T, const D: usize> Bvh<T, D> {
        /// Every shape, in its order.
        pub fn traverse<'a, Shape>(&self, _ray: &Ray, shapes: &'a [Shape]) -> Vec<&'a Shape> {
            shapes.iter().collect()
        }
    }
}
