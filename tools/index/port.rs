//! The library's index, by its functions for C: these take pointers and numbers alone, so that nothing stands between.

extern "C" {
    fn sdf_index_build(
        triangles: u32,
        names: *const u32,
        names_length: usize,
        starts: *mut u32,
        starts_length: usize,
        list: *mut u32,
        list_length: usize,
    ) -> u32;
    fn sdf_index_update(
        triangles: u32,
        old_names: *const u32,
        old_names_length: usize,
        names: *const u32,
        names_length: usize,
        starts: *mut u32,
        starts_length: usize,
        list: *mut u32,
        list_length: usize,
    ) -> u32;
}

pub fn build(triangles: u32, names: &[u32], starts: &mut [u32], list: &mut [u32]) -> u32 {
    // SAFETY: every pointer is that of a slice, with the slice's own length; none are shared.
    unsafe {
        sdf_index_build(
            triangles,
            names.as_ptr(),
            names.len(),
            starts.as_mut_ptr(),
            starts.len(),
            list.as_mut_ptr(),
            list.len(),
        )
    }
}

pub fn update(triangles: u32, old: &[u32], names: &[u32], starts: &mut [u32], list: &mut [u32]) -> u32 {
    // SAFETY: as above; old names and names are only read.
    unsafe {
        sdf_index_update(
            triangles,
            old.as_ptr(),
            old.len(),
            names.as_ptr(),
            names.len(),
            starts.as_mut_ptr(),
            starts.len(),
            list.as_mut_ptr(),
            list.len(),
        )
    }
}
