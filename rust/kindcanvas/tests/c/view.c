/* Runs document 01's case C with one more alternative from C, and opens its answers on the page; then those of a damaged page and of an empty one. */
#include "kindcanvas.h"

#include <inttypes.h>
#include <stdio.h>
#include <stdlib.h>

#define WORD(kind, payload) ((uint32_t)(kind) << 28 | (uint32_t)(payload))
#define LENGTH(words) (sizeof(words) / sizeof((words)[0]))

static const uint32_t program[] = {
    WORD(13, 5), WORD(2, 1),  WORD(2, 1), WORD(12, 2), WORD(2, 1), WORD(0, 0), WORD(13, 12), WORD(2, 1), WORD(2, 1), WORD(11, 9),
    WORD(12, 2), WORD(2, 1),  WORD(0, 0), WORD(5, 2),  WORD(0, 0), WORD(2, 5), WORD(5, 2),   WORD(0, 0), WORD(1, 7),
};

/* The second answer lacks a word. */
static const uint32_t damaged[] = {WORD(15, 0), WORD(15, 2), WORD(1, 7)};

static void show(const uint32_t *page, size_t words, uint32_t answer) {
    size_t start, end;
    uint32_t refusal = kindcanvas_view(page, words, answer, &start, &end);
    printf("answer %" PRIu32 ": refusal %" PRIu32 " start %zu end %zu:", answer, refusal, start, end);
    for (size_t at = start; at < end; at++)
        printf(" %" PRIu32 ":%" PRIu32, page[at] >> 28, page[at] & 0x0fffffff);
    printf("\n");
}

int main(void) {
    uint32_t page[16], numbers[8];
    uint32_t *scratch = malloc(12288 * sizeof *scratch);
    if (scratch == NULL)
        return 1;
    printf("check %" PRIu64 "\n", kindcanvas_check(program, LENGTH(program)));
    uint32_t written = kindcanvas_run(program, LENGTH(program), 2, 1000000, page, LENGTH(page), scratch, 12288, numbers,
                                      LENGTH(numbers));
    printf("run %" PRIu32 ": end %" PRIu32 " answers %" PRIu32 "\n", written, numbers[0], numbers[5]);
    for (uint32_t answer = 0; answer < 3; answer++)
        show(page, LENGTH(page), answer);
    for (uint32_t answer = 0; answer < 2; answer++)
        show(damaged, LENGTH(damaged), answer);
    show(damaged, 0, 0);
    free(scratch);
    return 0;
}
