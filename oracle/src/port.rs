//! Pitavele, through the symbol a foreign caller uses.

#[repr(C)]
#[derive(Clone, Copy, Debug, PartialEq, Eq)]
pub struct Answer {
    pub refusal: u32,
    pub count: u32,
    pub length: u64,
}

extern "C" {
    fn pitavele_subset(
        font: *const u8,
        font_len: usize,
        index: u32,
        ids: *const u16,
        ids_len: usize,
        scratch: *mut u16,
        scratch_len: usize,
        out: *mut u8,
        out_len: usize,
    ) -> Answer;
}

pub fn subset(font: &[u8], index: u32, ids: &[u16], scratch: &mut [u16], out: &mut [u8]) -> Answer {
    // Each pair is one live slice, and only the last two are written.
    unsafe {
        pitavele_subset(
            font.as_ptr(),
            font.len(),
            index,
            ids.as_ptr(),
            ids.len(),
            scratch.as_mut_ptr(),
            scratch.len(),
            out.as_mut_ptr(),
            out.len(),
        )
    }
}
