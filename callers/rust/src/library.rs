//! The proved functions, as their C forms are declared: a slice is a pointer and a length.

use crate::{Gap, Lent, Refusal, Told};

unsafe extern "C" {
    fn cpool_run(
        job: *const u8,
        job_length: usize,
        work: *mut u32,
        work_length: usize,
        gaps: *mut Gap,
        gaps_length: usize,
        answers: *mut u16,
        answers_length: usize,
        marks: *mut u8,
        marks_length: usize,
        pool: *mut u8,
        pool_length: usize,
        bootstraps: *mut u8,
        bootstraps_length: usize,
        class_name: *mut u8,
        class_name_length: usize,
        numbers: *mut [usize; 9],
    ) -> u32;

    fn blocks_read(
        file: *const u8,
        file_length: usize,
        job: *mut u8,
        job_length: usize,
        place: *mut usize,
        size: *mut usize,
    ) -> u32;

    fn blocks_write(
        job: *const u8,
        job_length: usize,
        file: *mut u8,
        file_length: usize,
        place: *mut usize,
        size: *mut usize,
    ) -> u32;

    fn texts_read(
        text: *const u8,
        text_length: usize,
        units: *mut u16,
        units_length: usize,
        size: *mut usize,
    ) -> u32;

    fn texts_write(
        units: *const u16,
        units_length: usize,
        text: *mut u8,
        text_length: usize,
        size: *mut usize,
    ) -> u32;
}

/// Calls `cpool_run`, and puts its nine numbers in their places.
pub fn run(job: &[u8], lent: Lent<'_>) -> Result<Told, Refusal> {
    let mut numbers = [0; 9];
    // SAFETY: the slices live through the call and no two overlap, since all but `job` are borrowed to be changed; the
    // proved function keeps to their lengths.
    let code = unsafe {
        cpool_run(
            job.as_ptr(),
            job.len(),
            lent.work.as_mut_ptr(),
            lent.work.len(),
            lent.gaps.as_mut_ptr(),
            lent.gaps.len(),
            lent.answers.as_mut_ptr(),
            lent.answers.len(),
            lent.marks.as_mut_ptr(),
            lent.marks.len(),
            lent.pool.as_mut_ptr(),
            lent.pool.len(),
            lent.bootstraps.as_mut_ptr(),
            lent.bootstraps.len(),
            lent.class_name.as_mut_ptr(),
            lent.class_name.len(),
            &mut numbers,
        )
    };
    let [
        place,
        answers,
        pool,
        bootstrap_count,
        bootstraps,
        name_slot,
        class_given,
        class_name,
        visits,
    ] = numbers;
    if code != 0 {
        return Err(Refusal { code, place });
    }
    Ok(Told {
        answers,
        pool,
        bootstrap_count,
        bootstraps,
        name_slot,
        class_name: (class_given != 0).then_some(class_name),
        visits,
    })
}

pub fn read_blocks(file: &[u8], job: &mut [u8]) -> Result<usize, Refusal> {
    convert(blocks_read, file, job)
}

pub fn write_blocks(job: &[u8], file: &mut [u8]) -> Result<usize, Refusal> {
    convert(blocks_write, job, file)
}

type BlockFunction =
    unsafe extern "C" fn(*const u8, usize, *mut u8, usize, *mut usize, *mut usize) -> u32;

fn convert(function: BlockFunction, given: &[u8], out: &mut [u8]) -> Result<usize, Refusal> {
    let (mut place, mut size) = (0, 0);
    // SAFETY: both slices and both numbers live through the call and no two overlap; the proved function keeps to the
    // slices' lengths.
    let code = unsafe {
        function(
            given.as_ptr(),
            given.len(),
            out.as_mut_ptr(),
            out.len(),
            &mut place,
            &mut size,
        )
    };
    match code {
        0 => Ok(size),
        code => Err(Refusal { code, place }),
    }
}

pub fn read_text(text: &[u8], units: &mut [u16]) -> Result<usize, Refusal> {
    convert_text(texts_read, text, units)
}

pub fn write_text(units: &[u16], text: &mut [u8]) -> Result<usize, Refusal> {
    convert_text(texts_write, units, text)
}

type TextFunction<A, B> = unsafe extern "C" fn(*const A, usize, *mut B, usize, *mut usize) -> u32;

fn convert_text<A, B>(
    function: TextFunction<A, B>,
    given: &[A],
    out: &mut [B],
) -> Result<usize, Refusal> {
    let mut size = 0;
    // SAFETY: both slices and the number live through the call and no two overlap; the proved function keeps to the
    // slices' lengths.
    let code = unsafe {
        function(
            given.as_ptr(),
            given.len(),
            out.as_mut_ptr(),
            out.len(),
            &mut size,
        )
    };
    match code {
        0 => Ok(size),
        code => Err(Refusal { code, place: 0 }),
    }
}
