/* Plays 1,000 lines many times and prints lines a second. Not part of the gate. */
#define _POSIX_C_SOURCE 199309L
#include <stdio.h>
#include <string.h>
#include <time.h>

#include "ceiling_locks.h"

enum { LINES = 1000, TIMES = 2000, SHEET_LINE = 32 };

static const uint8_t heading[63] = {
    2, 0, 0, 3, 132, 0, 0, 3, 137, 0, 0, 0, 0, 0, 0, 0, 0, 0, 0, 0, 0, 0, 0, 0, 0, 0, 0, 0, 0, 0, 0, 0, 0,
    3, 0, 10, 0, 2, 0, 20, 0, 4, 0, 50, 0, 6, 0, 5, 0, 0, 0, 1, 0, 1, 1, 1, 0, 2, 0, 0, 2, 1, 1,
};

static const char *const worked[] = {
    "A 2\n", "L 2 0 0\n", "A 0\n", "L 0 0 0\n", "R 0 0 1\n", "F 0\n", "A 1\n",
    "T\n", "L 1 0 1\n", "T\n", "F 2\n", "L 1 0 1\n", "W 1 0 1 912\n", "F 1\n",
};

int main(void)
{
    static uint8_t input[60000];
    static uint8_t sheet[LINES * SHEET_LINE];
    struct timespec start, stop;
    size_t length = sizeof heading;
    double seconds;
    int i;

    memcpy(input, heading, sizeof heading);
    for (i = 0; i < LINES; i++) {
        const char *line = worked[i % (int)(sizeof worked / sizeof worked[0])];

        memcpy(input + length, line, strlen(line));
        length += strlen(line);
    }
    clock_gettime(CLOCK_MONOTONIC, &start);
    for (i = 0; i < TIMES; i++)
        if (play(2, input, length, sheet, sizeof sheet) < 0)
            return 1;
    clock_gettime(CLOCK_MONOTONIC, &stop);
    seconds = (double)(stop.tv_sec - start.tv_sec) + (double)(stop.tv_nsec - start.tv_nsec) / 1e9;
    printf("%.0f lines a second (%d lines, %d times, %.2f s)\n", (double)LINES * TIMES / seconds, LINES, TIMES, seconds);
    return 0;
}
