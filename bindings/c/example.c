/* Plans a sheet from standard input with memory for the most activities and links that a sheet may have, and prints what `plan` prints. */
#include "neakspuoy.h"
#include <inttypes.h>
#include <stdio.h>

enum { ACTIVITIES = 4096, LINKS = 16384, FIELDS = 15 };

static uint8_t sheet[1 << 20];
static int64_t results[FIELDS * ACTIVITIES], work[64 * ACTIVITIES + 16 * LINKS], answer[5];
static uint32_t names[LINKS];

int main(void) {
    size_t n = fread(sheet, 1, sizeof sheet, stdin);
    neakspuoy_schedule(sheet, n, results, FIELDS * ACTIVITIES, names, LINKS, work, 64 * ACTIVITIES + 16 * LINKS, answer, 5);
    if (answer[0] != 0) {
        printf("refused %" PRId64 " %" PRId64 "\n", answer[1], answer[2]);
        return 0;
    }
    printf("plan %" PRId64 " %" PRId64 " %" PRId64 " %" PRId64 "\n", answer[1], answer[2], answer[3], answer[4]);
    for (int64_t k = 0; k < FIELDS * answer[2]; k++) printf("%" PRId64 "%c", results[k], k % FIELDS < FIELDS - 1 ? ' ' : '\n');
    return 0;
}
