//! What the calls stand on, one by one: the hash, growth, superblocks, the plan of a commit.

use super::declared as c;

pub fn fnv1a64(bytes: &[u8]) -> u64 {
    // SAFETY: each pointer and the length after it are one slice's.
    unsafe { c::yuharopu_fnv1a64(bytes.as_ptr(), bytes.len()) }
}

pub fn fold_fnv1a64(hash: u64, bytes: &[u8]) -> u64 {
    // SAFETY: each pointer and the length after it are one slice's.
    unsafe { c::yuharopu_fold_fnv1a64(hash, bytes.as_ptr(), bytes.len()) }
}

pub fn page_count_for_size(size: u64) -> u64 {
    // SAFETY: it takes a number alone.
    unsafe { c::yuharopu_page_count_for_size(size) }
}

pub fn grow(mem: &mut [u8], count: u64, end: u64, pages: &mut [u64]) -> u64 {
    // SAFETY: each pointer and the length after it are one slice's.
    unsafe {
        c::yuharopu_grow(
            mem.as_mut_ptr(),
            mem.len(),
            count,
            end,
            pages.as_mut_ptr(),
            pages.len(),
        )
    }
}

pub fn superblock_fresh(fields: &mut [u64]) -> u64 {
    // SAFETY: each pointer and the length after it are one slice's.
    unsafe { c::yuharopu_superblock_fresh(fields.as_mut_ptr(), fields.len()) }
}

pub fn superblock_load(block: &[u8], fields: &mut [u64]) -> u64 {
    // SAFETY: each pointer and the length after it are one slice's.
    unsafe {
        c::yuharopu_superblock_load(
            block.as_ptr(),
            block.len(),
            fields.as_mut_ptr(),
            fields.len(),
        )
    }
}

pub fn superblock_store(mem: &mut [u8], fields: &[u64], runs: &[u64]) -> u64 {
    // SAFETY: each pointer and the length after it are one slice's.
    unsafe {
        c::yuharopu_superblock_store(
            mem.as_mut_ptr(),
            mem.len(),
            fields.as_ptr(),
            fields.len(),
            runs.as_ptr(),
            runs.len(),
        )
    }
}

pub fn plan(
    work: &mut [u64],
    extents: &[u64],
    old_size: u64,
    new_size: u64,
    record: &[u64],
    dirty: &[u64],
    answer: &mut [u64],
) -> u64 {
    // SAFETY: each pointer and the length after it are one slice's.
    unsafe {
        c::yuharopu_plan(
            work.as_mut_ptr(),
            work.len(),
            extents.as_ptr(),
            extents.len(),
            old_size,
            new_size,
            record.as_ptr(),
            record.len(),
            dirty.as_ptr(),
            dirty.len(),
            answer.as_mut_ptr(),
            answer.len(),
        )
    }
}
