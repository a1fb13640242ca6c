/*
 * Ceiling Locks: read/write priority ceilings for one processor.
 *
 * Four functions on numbers and byte slices. Each answers a number that is
 * not negative, or minus the number of the refusal (docs/REFUSALS.md).
 *
 * What is passed. A slice is a pointer and then its length in bytes; the
 * memory stays the caller's, is used only during the call, and is not kept.
 * A null pointer goes with length 0, and stands for no bytes. Numbers are
 * 64 bits wide, so that no C integer is cut: 258 is no rule 2, and -1 is no
 * task. The rule's number comes first: 1 is exclusive, 2 is read/write.
 *
 * What is left. Nothing is allocated, no state is kept between calls, and
 * nothing but the sheet is written, so the functions may be called from any
 * thread, also at the same time. A refused call has written nothing.
 */
#ifndef CEILING_LOCKS_H
#define CEILING_LOCKS_H

#include <stddef.h>
#include <stdint.h>

#ifdef __cplusplus
extern "C" {
#endif

/*
 * Whether the plan is accepted: 0.
 * Refused: -9 no such rule, -1 to -6 a fault of the plan, -7 bytes after it.
 */
int64_t check(int64_t rule, const uint8_t *plan, size_t plan_length);

/*
 * The ceiling of an object that is locked in a mode: the number of the
 * highest task that the lock can keep waiting, or 16 where there is none.
 * Refused: as check; then -9 where the object or the mode is not there.
 */
int64_t ceiling(int64_t rule, const uint8_t *plan, size_t plan_length,
                int64_t object, int64_t mode);

/*
 * The bound of a task: the most ticks that lower tasks can run while one
 * instance of it is open.
 * Refused: as check; then -9 where the task is not there.
 */
int64_t bound(int64_t rule, const uint8_t *plan, size_t plan_length,
              int64_t task);

/*
 * Plays the tape that follows the plan in the input, on a fresh manager with
 * 64 lock records and 64 images, and writes the sheet, a line for each line
 * of the tape (docs/TAPE.md). The number of bytes written; the bytes of the
 * sheet past them stay as they were.
 * Refused, in this order: -9 no such rule, -2 an input of more than 60,000
 * bytes, -1 to -6 a fault of the plan, -2 more than 1,000 tape lines, -19 a
 * sheet shorter than 32 bytes for each tape line. The sheet is then as it was.
 */
int64_t play(int64_t rule, const uint8_t *input, size_t input_length,
             uint8_t *sheet, size_t sheet_length);

#ifdef __cplusplus
}
#endif

#endif
