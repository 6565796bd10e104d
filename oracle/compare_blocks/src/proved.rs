//! The functions of crates/blocks, as their static library exports them.

unsafe extern "C" {
    pub fn blocks_read(
        file: *const u8,
        file_length: usize,
        out: *mut u8,
        out_length: usize,
        place: *mut usize,
        size: *mut usize,
    ) -> u32;
    pub fn blocks_write(
        job: *const u8,
        job_length: usize,
        out: *mut u8,
        out_length: usize,
        place: *mut usize,
        size: *mut usize,
    ) -> u32;
}

type BlockFunction =
    unsafe extern "C" fn(*const u8, usize, *mut u8, usize, *mut usize, *mut usize) -> u32;

/// The refusal's number (0: none), its place and the length written.
pub type Answer = (u32, usize, usize);

pub fn call(function: BlockFunction, given: &[u8], out: &mut [u8]) -> Answer {
    let (mut place, mut size) = (usize::MAX, usize::MAX);
    // SAFETY: both slices and both numbers live through the call, and the proved function keeps to their lengths.
    let code = unsafe {
        function(
            given.as_ptr(),
            given.len(),
            out.as_mut_ptr(),
            out.len(),
            &mut place,
            &mut size,
        )
    };
    (code, place, size)
}
