/* The C functions of the static library libyuharopu.a, proved in crates/yuharopu.
 *
 * A slice passes as a pointer and a number of elements. Every function takes any argument: nothing has to be
 * checked beforehand. An answer is 0, or the number of a refusal (docs/REFUSALS.md); a refusal by 35 changes
 * nothing.
 */
#ifndef YUHAROPU_H
#define YUHAROPU_H

#include <stddef.h>
#include <stdint.h>

#ifdef __cplusplus
extern "C" {
#endif

/* The bytes of an encoded superblock, and the numbers of one in `fields`: magic (read as a little-endian number),
 * version, page size, then the eighteen 64-bit fields, of which field k lies at byte 16 + 8k, k from 0 on: db_size,
 * schema_version, last_tx_id, flags, checksum, import_expected_checksum, import_written_until, import_total_size,
 * import_base_offset, checksum_refresh_offset, checksum_refresh_hash, checksum_refresh_tx_id, db_base_offset,
 * page_table_offset, page_count, layout_version, zero_extent_count, meta_checksum. */
#define YUHAROPU_SUPERBLOCK_BYTES 16544
#define YUHAROPU_SUPERBLOCK_FIELDS 21

/* 64-bit FNV-1a of the bytes; and from a hash on, so that folding over two parts is folding over their join. */
uint64_t yuharopu_fnv1a64(const uint8_t *bytes, size_t len);
uint64_t yuharopu_fold_fnv1a64(uint64_t hash, const uint8_t *bytes, size_t len);

/* The pages of 16,384 bytes that `size` bytes need. */
uint64_t yuharopu_page_count_for_size(uint64_t size);

/* Memory of `count` stable pages grows until it reaches the byte offset `end`: the new stable pages become zeros.
 * pages[0] is the count before, pages[1] the count that is required, which is `count` where it reaches `end` already.
 * 32 where it does not and the lent bytes do not hold the required count (memory unchanged), 35 where `pages` has
 * fewer than two places. */
uint64_t yuharopu_grow(uint8_t *mem, size_t mem_len, uint64_t count, uint64_t end, uint64_t *pages, size_t pages_len);

/* The fields of a fresh image's superblock. 35 where `fields` has fewer than 21 places. */
uint64_t yuharopu_superblock_fresh(uint64_t *fields, size_t fields_len);

/* The superblock in the first 16,544 bytes of `block`: its fields; or 1, 2 or 3, with the first 21 places of
 * `fields` zeros but for the number of a 2 in fields[0]. 35 where `block` or `fields` is too short. */
uint64_t yuharopu_superblock_load(const uint8_t *block, size_t block_len, uint64_t *fields, size_t fields_len);

/* Stores a superblock of these fields and zero runs (two numbers a run, start then end) in the first bytes of `mem`,
 * with version 8 and the checksum that belongs to it, and nothing after the last run. 35 where `mem` has fewer than
 * 16,544 bytes or `fields` fewer than 21 places, 31 where zero_extent_count is above 1,024, 35 where `runs` has fewer
 * than two numbers a run; nothing changes then. Only the low 32 bits of the page size count. */
uint64_t yuharopu_superblock_store(uint8_t *mem, size_t mem_len, const uint64_t *fields, size_t fields_len,
                                   const uint64_t *runs, size_t runs_len);

/* The zero runs of an image after a commit that takes its size from old_size to new_size bytes. `extents` are the
 * image's runs and `record` the runs that the update recorded, in order, two numbers a run, start then end; `dirty` are
 * the numbers of the dirty pages. 0: answer[0] is the number of runs, and they stand in front of `work`, zeros behind
 * them. 31: too many runs, `work` is zeros and `answer` stays. Any lists are taken: the image's runs count as the set
 * of their pages, an empty run adds nothing, an odd last number is no run, and a dirty page makes room in the limit as
 * often as it is listed. 35, nothing changed: `work` has fewer than 2 x (1,025 + 2 x dirty_len)
 * numbers, `extents` more than 1,024 runs, or `answer` no place. */
uint64_t yuharopu_plan(uint64_t *work, size_t work_len, const uint64_t *extents, size_t extents_len, uint64_t old_size,
                       uint64_t new_size, const uint64_t *record, size_t record_len, const uint64_t *dirty,
                       size_t dirty_len, uint64_t *answer, size_t answer_len);

/* An image in lent memory, and an update of it
 * --------------------------------------------
 *
 * `mem` is the memory: its whole stable pages of 65,536 bytes are the ceiling, and bytes after the last of them are
 * never touched. How many stable pages are in use is part of the state, as are the numbers of the superblock and of
 * the update.
 *
 * `state` is a buffer of exactly 336 bytes that the caller keeps between calls and need not look into: 42 little-endian
 * 64-bit numbers: the count of stable pages; the 21 numbers of the superblock, in the order above; whether an update is
 * open (0 or 1); and the update's 19: its base size, size, dirty pages, record entries, clean pages, the numbers of
 * eight clean pages, whether it has a budget (0 or 1), the budget's pages and bytes, whether it was passed (0, 1 by
 * pages, 2 by bytes), the peaks of pages and bytes. Any bytes are taken; where a number is 0 or 1, any other counts as
 * 1, and of the version and the page size the low 32 bits count; in that form they are written back where `state` is
 * lent to be changed and the answer is not 35, also where nothing else changes. No byte outside the lent slices is
 * touched, but a forged size of the image is believed: its checksum and a refresh go over so many bytes, zeros where
 * memory has none, up to 2^64 - 1 of them, and an export fills `dst` up to that size.
 *
 * `answer` has at least four places. Unless the call answers 35 its first four become the values of the answer, 0 where
 * there is none, and places after them stay.
 *
 * What an update, or a direct call, has to be lent:
 *   frames   n x 16,384 bytes and
 *   numbers  n numbers, for n dirty pages in order of first touch; the smaller count decides how many can be dirty;
 *   clean    131,072 bytes: eight pages that reads have taken from the image;
 *   record   two numbers an entry, start then end: a run of pages for each change of the page count, in order;
 *   work     2 x (1,025 + 2 n) numbers. A call keeps nothing there: it is zeros after every call that is lent it and
 *            answers neither 35 nor 10.
 * A call may be lent the front of longer buffers. It needs the frames in use (number 25 of the state, counted from 0) and
 * as many as it can make dirty: a write the pages that it has a byte in, and one more; a truncation two; the others none.
 * With more its answer is the same, but the end of an update or of a direct call fills all that is lent with zeros.
 * Between the calls of one update the first four are the caller's to keep. Places that it does not use may hold
 * anything and stay; those that it freed are zeros; all of these four become zeros, whole, when an update ends or a
 * direct call answers anything but 35 and 10.
 *
 * While an import is open there are no direct calls: with no update open, a write that has a byte and every truncation,
 * also to the size it has, answer 10, tested right after 35. They change nothing: memory, state, frames, numbers, clean,
 * record and work stay as they were, and only the values in `answer` become 0. A write without a byte is accepted as
 * ever. So of the calls of an import only an accepted yuharopu_finish_import changes the file.
 *
 * A call answers 0, or the number of the refusal that it met first (docs/REFUSALS.md). Of the numbers below, 24 comes
 * with the values expected, actual; 32 with the stable pages that there are and that are required; 2 with the number.
 * Every call answers 35, with nothing changed, neither `state` nor `answer` nor any other slice, where
 *   - `state` has not exactly 336 bytes or `answer` fewer than four places;
 *   - `mem`, if it is lent, is shorter than the count of stable pages;
 *   - `clean`, if it is lent, has fewer than 131,072 bytes;
 *   - in an update, `frames`, `numbers` or `record`, if they are lent, hold less than the update has;
 *   - `work`, if it is lent, has fewer than 2 x (1,025 + 2 n) numbers, n being the frames lent to this call. */
#define YUHAROPU_STATE_BYTES 336
#define YUHAROPU_ANSWER_NUMBERS 4
#define YUHAROPU_PAGE_BYTES 16384
#define YUHAROPU_STABLE_PAGE_BYTES 65536
#define YUHAROPU_CLEAN_BYTES 131072
#define YUHAROPU_WORK_NUMBERS(frames) (2 * (1025 + 2 * (frames)))

/* Opens the image in `mem`, of which `count` stable pages are in use. At count 0 it makes a fresh one: the first stable
 * page becomes zeros and its superblock is stored; 32 where `mem` has no stable page.
 * 1, 2, 3, 4: memory stays. After a refusal but 35 the state is one without image, whose superblock is zeros.
 * An import does not outlive the opening: where the accepted image has the importing mark, it is closed as
 * yuharopu_cancel_import would close it, and the superblock is stored. The mark and the four import fields become 0 and
 * the superblock's own checksum is made anew; its other fields, the file, the count and the bytes that were imported
 * stay. A complete import is closed too. An image without the mark is not changed. */
uint64_t yuharopu_open(uint8_t *state, size_t state_len, uint8_t *mem, size_t mem_len, uint64_t count, uint64_t *answer,
                       size_t answer_len);

/* Begins an update: answer[0] is the size of the file. Where `limited` is not 0, at most max_pages pages and max_bytes
 * bytes of pages can become dirty in it. 10, 13: nothing changes. */
uint64_t yuharopu_begin_update(uint8_t *state, size_t state_len, uint64_t limited, uint64_t max_pages,
                               uint64_t max_bytes, uint64_t *answer, size_t answer_len);

/* answer[0] is the size of the update that is open, else of the image. */
uint64_t yuharopu_file_size(const uint8_t *state, size_t state_len, uint64_t *answer, size_t answer_len);

/* All of `dst` is read from `offset` on, from the update that is open, else from the image; past the size it is zeros.
 * answer[0] is 1 where the read is empty or ends at or before the size, else 0. Only 35 can refuse it. */
uint64_t yuharopu_read_at(uint8_t *state, size_t state_len, const uint8_t *mem, size_t mem_len, const uint8_t *frames,
                          size_t frames_len, const uint64_t *numbers, size_t numbers_len, uint8_t *clean,
                          size_t clean_len, const uint64_t *record, size_t record_len, uint64_t offset, uint8_t *dst,
                          size_t dst_len, uint64_t *answer, size_t answer_len);

/* `bytes` are written from `offset` on; a size below their end becomes their end, with zeros in a gap.
 * In an update memory stays. 20, 34, 30, 33: the size stays; record, pages made dirty and bytes copied stay too (by 34,
 * and by 20 for the write's own end, nothing has changed).
 * With no update open the write is direct: it is committed at once, without budget, and leaves the transaction number
 * and all that concerns the checksum. 10: an import is open, and nothing changes; not asked of a write without a byte.
 * 20, 34, 33, 31, 32: memory stays. */
uint64_t yuharopu_write_at(uint8_t *state, size_t state_len, uint8_t *mem, size_t mem_len, uint8_t *frames,
                           size_t frames_len, uint64_t *numbers, size_t numbers_len, uint8_t *clean, size_t clean_len,
                           uint64_t *record, size_t record_len, uint64_t *work, size_t work_len, uint64_t offset,
                           const uint8_t *bytes, size_t bytes_len, uint64_t *answer, size_t answer_len);

/* The size becomes `size`, with zeros where it grows. In an update or direct, with the refusals of a write; while an
 * import is open a direct one answers 10 for every size. Refused at its last step, the tail of the last page (30 or
 * 33), it keeps the new size in the update. */
uint64_t yuharopu_truncate(uint8_t *state, size_t state_len, uint8_t *mem, size_t mem_len, uint8_t *frames,
                           size_t frames_len, uint64_t *numbers, size_t numbers_len, uint8_t *clean, size_t clean_len,
                           uint64_t *record, size_t record_len, uint64_t *work, size_t work_len, uint64_t size,
                           uint64_t *answer, size_t answer_len);

/* The update becomes part of the image. 31, 20, 32: memory stays. It is over then, accepted or refused (but by 35).
 * With no update open the call is accepted and only `work` becomes zeros. */
uint64_t yuharopu_commit_update(uint8_t *state, size_t state_len, uint8_t *mem, size_t mem_len, uint8_t *frames,
                                size_t frames_len, uint64_t *numbers, size_t numbers_len, uint8_t *clean,
                                size_t clean_len, uint64_t *record, size_t record_len, uint64_t *work, size_t work_len,
                                uint64_t *answer, size_t answer_len);

/* The update is given up. With none open the call is accepted and changes nothing. */
uint64_t yuharopu_rollback_update(uint8_t *state, size_t state_len, uint8_t *frames, size_t frames_len,
                                  uint64_t *numbers, size_t numbers_len, uint8_t *clean, size_t clean_len,
                                  uint64_t *record, size_t record_len, uint64_t *answer, size_t answer_len);

/* Begins an import of `total` bytes whose FNV-1a hash is to be `expected`; they go behind the stable pages in use. It is
 * open until it is finished or cancelled, or the image is opened again; till then the file can be read but not changed.
 * 12, 10, 20: nothing changes. */
uint64_t yuharopu_begin_import(uint8_t *state, size_t state_len, uint8_t *mem, size_t mem_len, uint64_t total,
                               uint64_t expected, uint64_t *answer, size_t answer_len);

/* The import's next bytes; `offset` is how many came before. 12, 11, 21, 20, 22, 32: nothing changes. */
uint64_t yuharopu_import_chunk(uint8_t *state, size_t state_len, uint8_t *mem, size_t mem_len, uint64_t offset,
                               const uint8_t *bytes, size_t bytes_len, uint64_t *answer, size_t answer_len);

/* The imported bytes become the file. 12, 11, 23: nothing changes. 24: the import is closed, the file stays. */
uint64_t yuharopu_finish_import(uint8_t *state, size_t state_len, uint8_t *mem, size_t mem_len, uint64_t *answer,
                                size_t answer_len);

/* The import is given up. 12, 11: nothing changes. */
uint64_t yuharopu_cancel_import(uint8_t *state, size_t state_len, uint8_t *mem, size_t mem_len, uint64_t *answer,
                                size_t answer_len);

/* The image's bytes from `offset` on go to the front of `dst`, up to its length or the size; answer[0] is how many, and
 * the rest of `dst` stays. 12: `dst` stays. */
uint64_t yuharopu_export_chunk(const uint8_t *state, size_t state_len, const uint8_t *mem, size_t mem_len,
                               uint64_t offset, uint8_t *dst, size_t dst_len, uint64_t *answer, size_t answer_len);

/* answer[0] is the FNV-1a hash of the image's bytes, as many as the size that the state has. 12. */
uint64_t yuharopu_checksum(const uint8_t *state, size_t state_len, const uint8_t *mem, size_t mem_len, uint64_t *answer,
                           size_t answer_len);

/* The same, and the superblock keeps it. 12: nothing changes. */
uint64_t yuharopu_refresh_checksum(uint8_t *state, size_t state_len, uint8_t *mem, size_t mem_len, uint64_t *answer,
                                   size_t answer_len);

/* The same in steps of at most `max_bytes` bytes, the superblock keeping how far they came: the answer is whether this
 * was the last (0 or 1), the hash so far, the offset reached, the size. 12, 25, 10: nothing changes. */
uint64_t yuharopu_refresh_checksum_chunk(uint8_t *state, size_t state_len, uint8_t *mem, size_t mem_len,
                                         uint64_t max_bytes, uint64_t *answer, size_t answer_len);

/* The dirty page's bytes go to the front of `dst`, as far as it reaches; answer[0] is 16,384, or 0 where no update is
 * open or the page is not dirty in it. */
uint64_t yuharopu_dirty_page(const uint8_t *state, size_t state_len, const uint8_t *frames, size_t frames_len,
                             const uint64_t *numbers, size_t numbers_len, uint64_t page, uint8_t *dst, size_t dst_len,
                             uint64_t *answer, size_t answer_len);

#ifdef __cplusplus
}
#endif

#endif
