/* The scheduling call. Link target/staticlib/libsched.a, which `tools/library.sh` writes. */
#ifndef NEAKSPUOY_H
#define NEAKSPUOY_H

#include <stddef.h>
#include <stdint.h>

/* Plans the sheet. All memory is lent and nothing need be checked before: results takes 15 numbers an activity, names at least the
   larger of the activities + 1 and the links, work 64 numbers an activity and 16 a link; where one is shorter the answer is row 1.
   answer takes five numbers: 0, finish day, activities, ignored links, open ends; or 1, row, id, 0, 0. Where it has fewer,
   nothing is written. */
void neakspuoy_schedule(const uint8_t *sheet, size_t sheet_len, int64_t *results, size_t results_len, uint32_t *names, size_t names_len,
                        int64_t *work, size_t work_len, int64_t *answer, size_t answer_len);

#endif
