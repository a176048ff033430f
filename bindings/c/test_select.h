/* Which tests of a Cargo workspace run: the proved program test_select, as one call.
 *
 * Link libtest_select_c.a first, then the kit's liblibc_c.a.
 */
#ifndef TEST_SELECT_H
#define TEST_SELECT_H

#include <stddef.h>
#include <stdint.h>

#ifdef __cplusplus
extern "C" {
#endif

/* The statuses of the run are 0, 1 and 2. */
enum { TEST_SELECT_TOO_SMALL = 3, TEST_SELECT_MALFORMED = 4 };

struct test_select_outcome {
    uint32_t status;
    size_t out_length;
    size_t err_length;
};

/* Runs test_select on the words, the program's name first, each ended by a zero byte. The files are each its
 * name, a zero byte, its length in eight bytes, the lowest first, and what it holds. Standard output and
 * standard error go into the two rooms, as much as fits; the lengths say how much there is. No pointer may be
 * null, also where its length is 0. The call keeps none of them, and reads no file of the system. */
struct test_select_outcome test_select_run(const uint8_t *words, size_t words_length,
                                           const uint8_t *files, size_t files_length,
                                           uint8_t *out, size_t out_room,
                                           uint8_t *err, size_t err_room);

#ifdef __cplusplus
}
#endif

#endif
