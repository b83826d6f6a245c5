//! The calls on an image, with any slices lent to each: nothing is tested here first.
//!
//! The answer is 0 or the number of a refusal; its values stand in the first four places of `answer`.

use super::declared as c;

/// What is lent to a call in an update, or to one that may be direct.
pub struct Lent<'a> {
    pub mem: &'a mut [u8],
    pub frames: &'a mut [u8],
    pub numbers: &'a mut [u64],
    pub clean: &'a mut [u8],
    pub record: &'a mut [u64],
    pub work: &'a mut [u64],
}

/// Opens the image in `mem`, of which `count` stable pages are in use; at 0 a fresh one. An import that is open in it is
/// cancelled.
pub fn open(state: &mut [u8], mem: &mut [u8], count: u64, answer: &mut [u64]) -> u64 {
    // SAFETY: each pointer and the length after it are one slice's.
    unsafe {
        c::yuharopu_open(
            state.as_mut_ptr(),
            state.len(),
            mem.as_mut_ptr(),
            mem.len(),
            count,
            answer.as_mut_ptr(),
            answer.len(),
        )
    }
}

/// Begins an update; its budget counts where `limited` is not 0.
pub fn begin_update(
    state: &mut [u8],
    limited: u64,
    max_pages: u64,
    max_bytes: u64,
    answer: &mut [u64],
) -> u64 {
    // SAFETY: each pointer and the length after it are one slice's.
    unsafe {
        c::yuharopu_begin_update(
            state.as_mut_ptr(),
            state.len(),
            limited,
            max_pages,
            max_bytes,
            answer.as_mut_ptr(),
            answer.len(),
        )
    }
}

/// The size of the update that is open, else of the image.
pub fn file_size(state: &[u8], answer: &mut [u64]) -> u64 {
    // SAFETY: each pointer and the length after it are one slice's.
    unsafe {
        c::yuharopu_file_size(
            state.as_ptr(),
            state.len(),
            answer.as_mut_ptr(),
            answer.len(),
        )
    }
}

/// Reads all of `dst`.
pub fn read_at(
    state: &mut [u8],
    lent: &mut Lent,
    offset: u64,
    dst: &mut [u8],
    answer: &mut [u64],
) -> u64 {
    // SAFETY: each pointer and the length after it are one slice's.
    unsafe {
        c::yuharopu_read_at(
            state.as_mut_ptr(),
            state.len(),
            lent.mem.as_ptr(),
            lent.mem.len(),
            lent.frames.as_ptr(),
            lent.frames.len(),
            lent.numbers.as_ptr(),
            lent.numbers.len(),
            lent.clean.as_mut_ptr(),
            lent.clean.len(),
            lent.record.as_ptr(),
            lent.record.len(),
            offset,
            dst.as_mut_ptr(),
            dst.len(),
            answer.as_mut_ptr(),
            answer.len(),
        )
    }
}

/// Writes in the update that is open, or directly: in an import that is 10, with nothing changed, unless it is empty.
pub fn write_at(
    state: &mut [u8],
    lent: &mut Lent,
    offset: u64,
    bytes: &[u8],
    answer: &mut [u64],
) -> u64 {
    // SAFETY: each pointer and the length after it are one slice's.
    unsafe {
        c::yuharopu_write_at(
            state.as_mut_ptr(),
            state.len(),
            lent.mem.as_mut_ptr(),
            lent.mem.len(),
            lent.frames.as_mut_ptr(),
            lent.frames.len(),
            lent.numbers.as_mut_ptr(),
            lent.numbers.len(),
            lent.clean.as_mut_ptr(),
            lent.clean.len(),
            lent.record.as_mut_ptr(),
            lent.record.len(),
            lent.work.as_mut_ptr(),
            lent.work.len(),
            offset,
            bytes.as_ptr(),
            bytes.len(),
            answer.as_mut_ptr(),
            answer.len(),
        )
    }
}

/// Sets the size in the update that is open, or directly: in an import that is 10, with nothing changed.
pub fn truncate(state: &mut [u8], lent: &mut Lent, size: u64, answer: &mut [u64]) -> u64 {
    // SAFETY: each pointer and the length after it are one slice's.
    unsafe {
        c::yuharopu_truncate(
            state.as_mut_ptr(),
            state.len(),
            lent.mem.as_mut_ptr(),
            lent.mem.len(),
            lent.frames.as_mut_ptr(),
            lent.frames.len(),
            lent.numbers.as_mut_ptr(),
            lent.numbers.len(),
            lent.clean.as_mut_ptr(),
            lent.clean.len(),
            lent.record.as_mut_ptr(),
            lent.record.len(),
            lent.work.as_mut_ptr(),
            lent.work.len(),
            size,
            answer.as_mut_ptr(),
            answer.len(),
        )
    }
}

/// Makes the update part of the image.
pub fn commit_update(state: &mut [u8], lent: &mut Lent, answer: &mut [u64]) -> u64 {
    // SAFETY: each pointer and the length after it are one slice's.
    unsafe {
        c::yuharopu_commit_update(
            state.as_mut_ptr(),
            state.len(),
            lent.mem.as_mut_ptr(),
            lent.mem.len(),
            lent.frames.as_mut_ptr(),
            lent.frames.len(),
            lent.numbers.as_mut_ptr(),
            lent.numbers.len(),
            lent.clean.as_mut_ptr(),
            lent.clean.len(),
            lent.record.as_mut_ptr(),
            lent.record.len(),
            lent.work.as_mut_ptr(),
            lent.work.len(),
            answer.as_mut_ptr(),
            answer.len(),
        )
    }
}

/// Gives the update up.
pub fn rollback_update(state: &mut [u8], lent: &mut Lent, answer: &mut [u64]) -> u64 {
    // SAFETY: each pointer and the length after it are one slice's.
    unsafe {
        c::yuharopu_rollback_update(
            state.as_mut_ptr(),
            state.len(),
            lent.frames.as_mut_ptr(),
            lent.frames.len(),
            lent.numbers.as_mut_ptr(),
            lent.numbers.len(),
            lent.clean.as_mut_ptr(),
            lent.clean.len(),
            lent.record.as_mut_ptr(),
            lent.record.len(),
            answer.as_mut_ptr(),
            answer.len(),
        )
    }
}

/// Begins an import of `total` bytes behind what memory holds.
pub fn begin_import(
    state: &mut [u8],
    mem: &mut [u8],
    total: u64,
    expected: u64,
    answer: &mut [u64],
) -> u64 {
    // SAFETY: each pointer and the length after it are one slice's.
    unsafe {
        c::yuharopu_begin_import(
            state.as_mut_ptr(),
            state.len(),
            mem.as_mut_ptr(),
            mem.len(),
            total,
            expected,
            answer.as_mut_ptr(),
            answer.len(),
        )
    }
}

/// The next bytes of the import.
pub fn import_chunk(
    state: &mut [u8],
    mem: &mut [u8],
    offset: u64,
    bytes: &[u8],
    answer: &mut [u64],
) -> u64 {
    // SAFETY: each pointer and the length after it are one slice's.
    unsafe {
        c::yuharopu_import_chunk(
            state.as_mut_ptr(),
            state.len(),
            mem.as_mut_ptr(),
            mem.len(),
            offset,
            bytes.as_ptr(),
            bytes.len(),
            answer.as_mut_ptr(),
            answer.len(),
        )
    }
}

/// Makes the imported bytes the image.
pub fn finish_import(state: &mut [u8], mem: &mut [u8], answer: &mut [u64]) -> u64 {
    // SAFETY: each pointer and the length after it are one slice's.
    unsafe {
        c::yuharopu_finish_import(
            state.as_mut_ptr(),
            state.len(),
            mem.as_mut_ptr(),
            mem.len(),
            answer.as_mut_ptr(),
            answer.len(),
        )
    }
}

/// Gives the import up.
pub fn cancel_import(state: &mut [u8], mem: &mut [u8], answer: &mut [u64]) -> u64 {
    // SAFETY: each pointer and the length after it are one slice's.
    unsafe {
        c::yuharopu_cancel_import(
            state.as_mut_ptr(),
            state.len(),
            mem.as_mut_ptr(),
            mem.len(),
            answer.as_mut_ptr(),
            answer.len(),
        )
    }
}

/// Copies the image's bytes to `dst`.
pub fn export_chunk(
    state: &[u8],
    mem: &[u8],
    offset: u64,
    dst: &mut [u8],
    answer: &mut [u64],
) -> u64 {
    // SAFETY: each pointer and the length after it are one slice's.
    unsafe {
        c::yuharopu_export_chunk(
            state.as_ptr(),
            state.len(),
            mem.as_ptr(),
            mem.len(),
            offset,
            dst.as_mut_ptr(),
            dst.len(),
            answer.as_mut_ptr(),
            answer.len(),
        )
    }
}

/// The hash of the image's bytes.
pub fn checksum(state: &[u8], mem: &[u8], answer: &mut [u64]) -> u64 {
    // SAFETY: each pointer and the length after it are one slice's.
    unsafe {
        c::yuharopu_checksum(
            state.as_ptr(),
            state.len(),
            mem.as_ptr(),
            mem.len(),
            answer.as_mut_ptr(),
            answer.len(),
        )
    }
}

/// The same, stored in the image.
pub fn refresh_checksum(state: &mut [u8], mem: &mut [u8], answer: &mut [u64]) -> u64 {
    // SAFETY: each pointer and the length after it are one slice's.
    unsafe {
        c::yuharopu_refresh_checksum(
            state.as_mut_ptr(),
            state.len(),
            mem.as_mut_ptr(),
            mem.len(),
            answer.as_mut_ptr(),
            answer.len(),
        )
    }
}

/// The same in steps.
pub fn refresh_checksum_chunk(
    state: &mut [u8],
    mem: &mut [u8],
    max_bytes: u64,
    answer: &mut [u64],
) -> u64 {
    // SAFETY: each pointer and the length after it are one slice's.
    unsafe {
        c::yuharopu_refresh_checksum_chunk(
            state.as_mut_ptr(),
            state.len(),
            mem.as_mut_ptr(),
            mem.len(),
            max_bytes,
            answer.as_mut_ptr(),
            answer.len(),
        )
    }
}

/// Copies a dirty page's bytes to `dst`.
pub fn dirty_page(
    state: &[u8],
    frames: &[u8],
    numbers: &[u64],
    page: u64,
    dst: &mut [u8],
    answer: &mut [u64],
) -> u64 {
    // SAFETY: each pointer and the length after it are one slice's.
    unsafe {
        c::yuharopu_dirty_page(
            state.as_ptr(),
            state.len(),
            frames.as_ptr(),
            frames.len(),
            numbers.as_ptr(),
            numbers.len(),
            page,
            dst.as_mut_ptr(),
            dst.len(),
            answer.as_mut_ptr(),
            answer.len(),
        )
    }
}
