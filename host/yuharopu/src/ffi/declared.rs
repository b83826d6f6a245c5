//! The functions of `include/yuharopu.h`, as C has them.

extern "C" {
    pub fn yuharopu_fnv1a64(bytes: *const u8, len: usize) -> u64;
    pub fn yuharopu_fold_fnv1a64(hash: u64, bytes: *const u8, len: usize) -> u64;
    pub fn yuharopu_page_count_for_size(size: u64) -> u64;
    pub fn yuharopu_grow(
        mem: *mut u8,
        mem_len: usize,
        count: u64,
        end: u64,
        pages: *mut u64,
        pages_len: usize,
    ) -> u64;
    pub fn yuharopu_superblock_fresh(fields: *mut u64, fields_len: usize) -> u64;
    pub fn yuharopu_superblock_load(
        block: *const u8,
        block_len: usize,
        fields: *mut u64,
        fields_len: usize,
    ) -> u64;
    pub fn yuharopu_superblock_store(
        mem: *mut u8,
        mem_len: usize,
        fields: *const u64,
        fields_len: usize,
        runs: *const u64,
        runs_len: usize,
    ) -> u64;
    pub fn yuharopu_plan(
        work: *mut u64,
        work_len: usize,
        extents: *const u64,
        extents_len: usize,
        old_size: u64,
        new_size: u64,
        record: *const u64,
        record_len: usize,
        dirty: *const u64,
        dirty_len: usize,
        answer: *mut u64,
        answer_len: usize,
    ) -> u64;
    pub fn yuharopu_open(
        state: *mut u8,
        state_len: usize,
        mem: *mut u8,
        mem_len: usize,
        count: u64,
        answer: *mut u64,
        answer_len: usize,
    ) -> u64;
    pub fn yuharopu_begin_update(
        state: *mut u8,
        state_len: usize,
        limited: u64,
        max_pages: u64,
        max_bytes: u64,
        answer: *mut u64,
        answer_len: usize,
    ) -> u64;
    pub fn yuharopu_file_size(
        state: *const u8,
        state_len: usize,
        answer: *mut u64,
        answer_len: usize,
    ) -> u64;
    pub fn yuharopu_read_at(
        state: *mut u8,
        state_len: usize,
        mem: *const u8,
        mem_len: usize,
        frames: *const u8,
        frames_len: usize,
        numbers: *const u64,
        numbers_len: usize,
        clean: *mut u8,
        clean_len: usize,
        record: *const u64,
        record_len: usize,
        offset: u64,
        dst: *mut u8,
        dst_len: usize,
        answer: *mut u64,
        answer_len: usize,
    ) -> u64;
    pub fn yuharopu_write_at(
        state: *mut u8,
        state_len: usize,
        mem: *mut u8,
        mem_len: usize,
        frames: *mut u8,
        frames_len: usize,
        numbers: *mut u64,
        numbers_len: usize,
        clean: *mut u8,
        clean_len: usize,
        record: *mut u64,
        record_len: usize,
        work: *mut u64,
        work_len: usize,
        offset: u64,
        bytes: *const u8,
        bytes_len: usize,
        answer: *mut u64,
        answer_len: usize,
    ) -> u64;
    pub fn yuharopu_truncate(
        state: *mut u8,
        state_len: usize,
        mem: *mut u8,
        mem_len: usize,
        frames: *mut u8,
        frames_len: usize,
        numbers: *mut u64,
        numbers_len: usize,
        clean: *mut u8,
        clean_len: usize,
        record: *mut u64,
        record_len: usize,
        work: *mut u64,
        work_len: usize,
        size: u64,
        answer: *mut u64,
        answer_len: usize,
    ) -> u64;
    pub fn yuharopu_commit_update(
        state: *mut u8,
        state_len: usize,
        mem: *mut u8,
        mem_len: usize,
        frames: *mut u8,
        frames_len: usize,
        numbers: *mut u64,
        numbers_len: usize,
        clean: *mut u8,
        clean_len: usize,
        record: *mut u64,
        record_len: usize,
        work: *mut u64,
        work_len: usize,
        answer: *mut u64,
        answer_len: usize,
    ) -> u64;
    pub fn yuharopu_rollback_update(
        state: *mut u8,
        state_len: usize,
        frames: *mut u8,
        frames_len: usize,
        numbers: *mut u64,
        numbers_len: usize,
        clean: *mut u8,
        clean_len: usize,
        record: *mut u64,
        record_len: usize,
        answer: *mut u64,
        answer_len: usize,
    ) -> u64;
    pub fn yuharopu_begin_import(
        state: *mut u8,
        state_len: usize,
        mem: *mut u8,
        mem_len: usize,
        total: u64,
        expected: u64,
        answer: *mut u64,
        answer_len: usize,
    ) -> u64;
    pub fn yuharopu_import_chunk(
        state: *mut u8,
        state_len: usize,
        mem: *mut u8,
        mem_len: usize,
        offset: u64,
        bytes: *const u8,
        bytes_len: usize,
        answer: *mut u64,
        answer_len: usize,
    ) -> u64;
    pub fn yuharopu_finish_import(
        state: *mut u8,
        state_len: usize,
        mem: *mut u8,
        mem_len: usize,
        answer: *mut u64,
        answer_len: usize,
    ) -> u64;
    pub fn yuharopu_cancel_import(
        state: *mut u8,
        state_len: usize,
        mem: *mut u8,
        mem_len: usize,
        answer: *mut u64,
        answer_len: usize,
    ) -> u64;
    pub fn yuharopu_export_chunk(
        state: *const u8,
        state_len: usize,
        mem: *const u8,
        mem_len: usize,
        offset: u64,
        dst: *mut u8,
        dst_len: usize,
        answer: *mut u64,
        answer_len: usize,
    ) -> u64;
    pub fn yuharopu_checksum(
        state: *const u8,
        state_len: usize,
        mem: *const u8,
        mem_len: usize,
        answer: *mut u64,
        answer_len: usize,
    ) -> u64;
    pub fn yuharopu_refresh_checksum(
        state: *mut u8,
        state_len: usize,
        mem: *mut u8,
        mem_len: usize,
        answer: *mut u64,
        answer_len: usize,
    ) -> u64;
    pub fn yuharopu_refresh_checksum_chunk(
        state: *mut u8,
        state_len: usize,
        mem: *mut u8,
        mem_len: usize,
        max_bytes: u64,
        answer: *mut u64,
        answer_len: usize,
    ) -> u64;
    pub fn yuharopu_dirty_page(
        state: *const u8,
        state_len: usize,
        frames: *const u8,
        frames_len: usize,
        numbers: *const u64,
        numbers_len: usize,
        page: u64,
        dst: *mut u8,
        dst_len: usize,
        answer: *mut u64,
        answer_len: usize,
    ) -> u64;
}
