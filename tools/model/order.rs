//! "Order of two distances, from document 004".

use std::cmp::Ordering;

/// `compare_distances`. Neither may be a NaN.
pub fn compare(a: f32, b: f32) -> Ordering {
    if alike(a.abs(), b.abs()) && a.is_sign_negative() != b.is_sign_negative() {
        // Alike with opposite sign bits: the positive one is smaller.
        return if a.is_sign_positive() { Ordering::Less } else { Ordering::Greater };
    }
    // In all other cases the magnitudes decide.
    a.abs().partial_cmp(&b.abs()).expect("no NaN is compared")
}

/// Magnitudes are alike if equal, or if their rounded difference is at most 1e-6, or if their bit patterns differ
/// by at most 2.
fn alike(a: f32, b: f32) -> bool {
    a == b || (a - b).abs() <= 1e-6_f32 || a.to_bits().abs_diff(b.to_bits()) <= 2
}
