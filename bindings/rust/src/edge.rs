//! The exported symbol of the proved archive, and the only unsafe code.
#![allow(unsafe_code)]

/// bindings/c/pitavele.h has the same, with each field's meaning.
#[repr(C)]
pub struct Answer {
    pub refusal: u32,
    pub count: u32,
    pub length: u64,
}

extern "C" {
    fn pitavele_subset(
        font: *const u8,
        font_len: usize,
        index: u32,
        ids: *const u16,
        ids_len: usize,
        scratch: *mut u16,
        scratch_len: usize,
        out: *mut u8,
        out_len: usize,
    ) -> Answer;
}

pub fn subset(font: &[u8], index: u32, ids: &[u16], scratch: &mut [u16], out: &mut [u8]) -> Answer {
    // SAFETY: each pointer and length are one live slice; only the last two are written, and Rust
    // lends them to nobody else meanwhile. The function keeps none of them, needs no state, and is
    // proved to end and to stay inside what it is lent, whatever the bytes are.
    unsafe {
        pitavele_subset(
            font.as_ptr(),
            font.len(),
            index,
            ids.as_ptr(),
            ids.len(),
            scratch.as_mut_ptr(),
            scratch.len(),
            out.as_mut_ptr(),
            out.len(),
        )
    }
}
