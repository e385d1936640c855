//! The proved packer by its C face.

/// A numbered reply with its detail.
#[repr(C)]
#[derive(Clone, Copy, Debug, PartialEq)]
pub struct Reply {
    pub number: u32,
    pub detail: u32,
}

mod face {
    use super::Reply;

    // a slice crosses as its pointer and its length
    extern "C" {
        pub fn cafunderi_fresh(
            chambers: *mut u32,
            chambers_len: usize,
            store: *mut u32,
            store_len: usize,
        ) -> Reply;

        pub fn cafunderi_pack(
            chambers: *mut u32,
            chambers_len: usize,
            store: *mut u32,
            store_len: usize,
            rectangles: *const u32,
            rectangles_len: usize,
            placements: *mut u32,
            placements_len: usize,
        ) -> Reply;

        pub fn cafunderi_join(
            chambers: *mut u32,
            chambers_len: usize,
            store: *mut u32,
            store_len: usize,
            id: u32,
            common: *mut u32,
            common_len: usize,
        ) -> Reply;

        pub fn cafunderi_audit(
            sides: *const u32,
            sides_len: usize,
            placed: *const u32,
            placed_len: usize,
            free: *const u32,
            free_len: usize,
            common: *mut u32,
            common_len: usize,
        ) -> Reply;
    }
}

pub fn fresh(chambers: &mut [u32], store: &mut [u32]) -> Reply {
    unsafe {
        face::cafunderi_fresh(
            chambers.as_mut_ptr(),
            chambers.len(),
            store.as_mut_ptr(),
            store.len(),
        )
    }
}

pub fn pack(
    chambers: &mut [u32],
    store: &mut [u32],
    rectangles: &[u32],
    placements: &mut [u32],
) -> Reply {
    unsafe {
        face::cafunderi_pack(
            chambers.as_mut_ptr(),
            chambers.len(),
            store.as_mut_ptr(),
            store.len(),
            rectangles.as_ptr(),
            rectangles.len(),
            placements.as_mut_ptr(),
            placements.len(),
        )
    }
}

/// The reply, and the common box that it hands on.
pub fn join(chambers: &mut [u32], store: &mut [u32], id: u32) -> (Reply, [u32; 6]) {
    let mut common = [u32::MAX; 6];
    let reply = unsafe {
        face::cafunderi_join(
            chambers.as_mut_ptr(),
            chambers.len(),
            store.as_mut_ptr(),
            store.len(),
            id,
            common.as_mut_ptr(),
            common.len(),
        )
    };
    (reply, common)
}

/// Likewise.
pub fn audit(sides: &[u32; 3], placed: &[u32], free: &[u32]) -> (Reply, [u32; 6]) {
    let mut common = [u32::MAX; 6];
    let reply = unsafe {
        face::cafunderi_audit(
            sides.as_ptr(),
            sides.len(),
            placed.as_ptr(),
            placed.len(),
            free.as_ptr(),
            free.len(),
            common.as_mut_ptr(),
            common.len(),
        )
    };
    (reply, common)
}
