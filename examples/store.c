/* A fresh image, an update of it, and what memory then holds.
 *
 *     cc -I include examples/store.c target/staticlib/libyuharopu.a -o store && ./store
 */
#include "yuharopu.h"

#include <inttypes.h>
#include <stdio.h>
#include <string.h>

#define STABLE_PAGES 4
#define FRAMES 4
#define ENTRIES 8

/* A slice as the functions take it. */
#define SLICE(array) array, sizeof(array) / sizeof((array)[0])

static uint8_t state[YUHAROPU_STATE_BYTES];
static uint8_t mem[STABLE_PAGES * YUHAROPU_STABLE_PAGE_BYTES];
static uint8_t frames[FRAMES * YUHAROPU_PAGE_BYTES];
static uint64_t numbers[FRAMES];
static uint8_t clean[YUHAROPU_CLEAN_BYTES];
static uint64_t record[2 * ENTRIES];
static uint64_t work[YUHAROPU_WORK_NUMBERS(FRAMES)];
static uint64_t answer[YUHAROPU_ANSWER_NUMBERS];

static int show(const char *call, uint64_t number) {
    printf("%s: %" PRIu64, call, number);
    for (size_t i = 0; i < YUHAROPU_ANSWER_NUMBERS; i++) {
        printf(" %" PRIu64, answer[i]);
    }
    printf("\n");
    return number != 0;
}

static uint64_t write_text(uint64_t offset, const char *text) {
    return yuharopu_write_at(SLICE(state), SLICE(mem), SLICE(frames), SLICE(numbers), SLICE(clean), SLICE(record),
                             SLICE(work), offset, (const uint8_t *)text, strlen(text), SLICE(answer));
}

static uint64_t read_text(uint64_t offset, char *text, size_t len) {
    return yuharopu_read_at(SLICE(state), SLICE(mem), SLICE(frames), SLICE(numbers), SLICE(clean), SLICE(record),
                            offset, (uint8_t *)text, len, SLICE(answer));
}

int main(void) {
    char text[6] = "";
    int refused = 0;

    refused += show("open", yuharopu_open(SLICE(state), SLICE(mem), 0, SLICE(answer)));
    refused += show("begin_update", yuharopu_begin_update(SLICE(state), 0, 0, 0, SLICE(answer)));
    refused += show("write_at", write_text(16384, "hello"));
    refused += show("file_size", yuharopu_file_size(SLICE(state), SLICE(answer)));
    refused += show("commit_update",
                    yuharopu_commit_update(SLICE(state), SLICE(mem), SLICE(frames), SLICE(numbers), SLICE(clean),
                                           SLICE(record), SLICE(work), SLICE(answer)));
    refused += show("read_at", read_text(16384, text, 5));
    printf("%s\n", text);
    refused += show("checksum", yuharopu_checksum(SLICE(state), SLICE(mem), SLICE(answer)));

    /* Memory of four stable pages cannot hold it: 32, with the stable pages in use and required. */
    show("truncate", yuharopu_truncate(SLICE(state), SLICE(mem), SLICE(frames), SLICE(numbers), SLICE(clean),
                                       SLICE(record), SLICE(work), 1 << 20, SLICE(answer)));

    /* Only memory has to be kept: the state comes back from it. */
    refused += show("open", yuharopu_open(SLICE(state), SLICE(mem), 2, SLICE(answer)));
    refused += show("file_size", yuharopu_file_size(SLICE(state), SLICE(answer)));
    return refused != 0;
}
