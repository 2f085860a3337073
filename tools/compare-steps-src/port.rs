//! The port's questions on words (port.c), in the order of the steps.

use crate::steps::{Ask, STEPS};

macro_rules! port {
    ($($name:ident)*) => {
        extern "C" {
            $(fn $name(words: *const u32, answer: *mut u32);)*
        }
        // SAFETY: each reads and writes as many words as its step says, which the slices have.
        pub const PORT: [Ask; STEPS.len()] = [$(|i, o| unsafe { $name(i.as_ptr(), o.as_mut_ptr()) }),*];
    };
}

port! {
    port_sqrt port_sqrt_bits port_compare
    port_triangle_box port_segment port_triangle port_distance port_ray
    port_grid_first port_grid_last port_grid_size port_grid_counts port_grid_total port_grid_box
    port_grid_index port_grid_coordinates port_grid_centre port_grid_snap port_grid_from_box
    port_signed_distance
}
