/* A controller's use of the four functions, on the worked plan and its tape. */
#include <inttypes.h>
#include <stdio.h>
#include <string.h>

#include "ceiling_locks.h"

enum { READ_WRITE = 2, SHEET_LINE = 32, TAPE_LINES = 14 };

/* Fusing (1) writes the heading, steering (0) reads it, logging (2) trails behind. */
static const uint8_t plan[] = {
    2,                                                               /* objects */
    0, 0, 3, 132, 0, 0, 3, 137, 0, 0, 0, 0, 0, 0, 0, 0,              /* the heading: 900, 905, 0, 0 */
    0, 0, 0, 0, 0, 0, 0, 0, 0, 0, 0, 0, 0, 0, 0, 0,                  /* the log */
    3,                                                               /* tasks: period, budget */
    0, 10, 0, 2, 0, 20, 0, 4, 0, 50, 0, 6,
    0, 5,                                                            /* uses: task, object, mode */
    0, 0, 0, 1, 0, 1, 1, 1, 0, 2, 0, 0, 2, 1, 1,
};

static const char tape[] =
    "A 2\nL 2 0 0\nA 0\nL 0 0 0\nR 0 0 1\nF 0\nA 1\nT\nL 1 0 1\nT\nF 2\nL 1 0 1\nW 1 0 1 912\nF 1\n";

int main(void)
{
    static uint8_t input[sizeof plan + sizeof tape - 1];
    static uint8_t sheet[TAPE_LINES * SHEET_LINE];
    int64_t written;
    int object, mode, task;

    if (check(READ_WRITE, plan, sizeof plan) != 0) {
        printf("the plan is refused\n");
        return 1;
    }
    for (object = 0; object < 2; object++)
        for (mode = 0; mode < 2; mode++)
            printf("ceiling of object %d in mode %d: %" PRId64 "\n", object, mode,
                   ceiling(READ_WRITE, plan, sizeof plan, object, mode));
    for (task = 0; task < 3; task++)
        printf("bound of task %d: %" PRId64 "\n", task, bound(READ_WRITE, plan, sizeof plan, task));

    memcpy(input, plan, sizeof plan);
    memcpy(input + sizeof plan, tape, sizeof tape - 1);
    written = play(READ_WRITE, input, sizeof input, sheet, sizeof sheet);
    if (written < 0) {
        printf("the play is refused: %" PRId64 "\n", -written);
        return 1;
    }
    fwrite(sheet, 1, (size_t)written, stdout);
    return 0;
}
