//! The verified archive behind safe functions. This file holds all unsafe code of the host side.

extern "C" {
    fn etzvanul_step(image: *const u8, image_len: usize, event: *const u8, event_len: usize, out: *mut u8, out_len: usize) -> u64;
    fn etzvanul_fresh(out: *mut u8, out_len: usize) -> u64;
    fn etzvanul_depth(image: *const u8, image_len: usize, node: u8, object: u8) -> u64;
    fn etzvanul_check(image: *const u8, image_len: usize) -> u64;
}

// In each call the pointers and lengths come from live slices, and a slice that is lent for writing overlaps no other: that is all
// that the header asks for. Empty slices have pointers that aren't null.

pub fn step(image: &[u8], event: &[u8], out: &mut [u8]) -> u64 {
    unsafe { etzvanul_step(image.as_ptr(), image.len(), event.as_ptr(), event.len(), out.as_mut_ptr(), out.len()) }
}

pub fn fresh(out: &mut [u8]) -> u64 {
    unsafe { etzvanul_fresh(out.as_mut_ptr(), out.len()) }
}

pub fn depth(image: &[u8], node: u8, object: u8) -> u64 {
    unsafe { etzvanul_depth(image.as_ptr(), image.len(), node, object) }
}

pub fn check(image: &[u8]) -> u64 {
    unsafe { etzvanul_check(image.as_ptr(), image.len()) }
}
