/* A table of plans and tapes, and what the four functions must answer; worked out by hand from docs/. Silent when all is well. */
#include <inttypes.h>
#include <stdio.h>
#include <string.h>

#include "ceiling_locks.h"

static int failures;

static void expect(const char *what, int64_t got, int64_t wanted)
{
    if (got != wanted) {
        printf("%s: %" PRId64 ", and not %" PRId64 "\n", what, got, wanted);
        failures++;
    }
}

/* The worked plan of examples/heading.plan. */
static const uint8_t heading[63] = {
    2, 0, 0, 3, 132, 0, 0, 3, 137, 0, 0, 0, 0, 0, 0, 0, 0, 0, 0, 0, 0, 0, 0, 0, 0, 0, 0, 0, 0, 0, 0, 0, 0,
    3, 0, 10, 0, 2, 0, 20, 0, 4, 0, 50, 0, 6, 0, 5, 0, 0, 0, 1, 0, 1, 1, 1, 0, 2, 0, 0, 2, 1, 1,
};

/* One byte of the worked plan changed, under a rule, and what check answers. */
static const struct {
    const char *what;
    int64_t rule;
    int at;
    int value;
    int64_t answer;
} changes[] = {
    {"as it is", 2, 0, 2, 0},
    {"mode 1 under exclusive", 1, 0, 2, -5},
    {"rule 0", 0, 0, 2, -9},
    {"rule 3", 3, 0, 2, -9},
    {"rule -1", -1, 0, 2, -9},
    {"rule 258", 258, 0, 2, -9},
    {"rule 2 and 32 bits more", INT64_C(4294967298), 0, 2, -9},
    {"a bad rule before a bad plan", 7, 0, 0, -9},
    {"no objects", 2, 0, 0, -2},
    {"33 objects", 2, 0, 33, -2},
    {"no tasks", 2, 33, 0, -2},
    {"17 tasks", 2, 33, 17, -2},
    {"period 0", 2, 35, 0, -3},
    {"budget 0", 2, 37, 0, -3},
    {"budget fills the period", 2, 37, 10, 0},
    {"budget above the period", 2, 37, 11, -3},
    {"equal periods", 2, 39, 10, 0},
    {"a falling period", 2, 39, 9, -4},
    {"517 uses", 2, 46, 2, -2},
    {"six uses", 2, 47, 6, -1},
    {"four uses", 2, 47, 4, -7},
    {"no task 3", 2, 48, 3, -5},
    {"no object 2", 2, 49, 2, -5},
    {"no mode 2", 2, 50, 2, -5},
    {"the first use again", 2, 57, 0, -6},
};

static void try_changes(void)
{
    size_t i;

    for (i = 0; i < sizeof changes / sizeof changes[0]; i++) {
        uint8_t plan[sizeof heading];

        memcpy(plan, heading, sizeof plan);
        plan[changes[i].at] = (uint8_t)changes[i].value;
        expect(changes[i].what, check(changes[i].rule, plan, sizeof plan), changes[i].answer);
        if (changes[i].answer < 0) {
            expect(changes[i].what, ceiling(changes[i].rule, plan, sizeof plan, 0, 0), changes[i].answer);
            expect(changes[i].what, bound(changes[i].rule, plan, sizeof plan, 0), changes[i].answer);
            expect(changes[i].what, ceiling(changes[i].rule, plan, sizeof plan, -1, 0), changes[i].answer);
        }
    }
}

static void try_heading(void)
{
    uint8_t alone[sizeof heading];
    size_t cut;

    expect("heading read", ceiling(2, heading, sizeof heading, 0, 0), 1);
    expect("heading written", ceiling(2, heading, sizeof heading, 0, 1), 0);
    expect("log read", ceiling(2, heading, sizeof heading, 1, 0), 2);
    expect("log written", ceiling(2, heading, sizeof heading, 1, 1), 1);
    expect("no object", ceiling(2, heading, sizeof heading, 2, 0), -9);
    expect("no mode", ceiling(2, heading, sizeof heading, 0, 2), -9);
    expect("object -1", ceiling(2, heading, sizeof heading, -1, 0), -9);
    expect("object 256", ceiling(2, heading, sizeof heading, 256, 0), -9);
    expect("mode -1", ceiling(2, heading, sizeof heading, 0, -1), -9);
    expect("mode 256", ceiling(2, heading, sizeof heading, 0, 256), -9);
    expect("steering", bound(2, heading, sizeof heading, 0), 4);
    expect("fusing", bound(2, heading, sizeof heading, 1), 6);
    expect("logging", bound(2, heading, sizeof heading, 2), 0);
    expect("no task", bound(2, heading, sizeof heading, 3), -9);
    expect("task -1", bound(2, heading, sizeof heading, -1), -9);
    expect("task 256", bound(2, heading, sizeof heading, 256), -9);
    expect("the least number", bound(2, heading, sizeof heading, INT64_MIN), -9);
    for (cut = 0; cut < sizeof heading; cut++)
        expect("cut short", check(2, heading, cut), -1);

    memcpy(alone, heading, sizeof alone);
    alone[53] = 0;
    alone[62] = 0;
    expect("heading alone", ceiling(1, alone, sizeof alone, 0, 0), 0);
    expect("log alone", ceiling(1, alone, sizeof alone, 1, 0), 1);
    expect("steering alone", bound(1, alone, sizeof alone, 0), 6);
    expect("fusing alone", bound(1, alone, sizeof alone, 1), 6);
    expect("logging alone", bound(1, alone, sizeof alone, 2), 0);
}

/* So many objects, tasks of period 9 and budget 1 + number, and uses: task after task, then object after object, then the next mode. */
static size_t build(uint8_t *plan, int objects, int tasks, int uses)
{
    size_t n = 0;
    int i;

    plan[n++] = (uint8_t)objects;
    memset(plan + n, 0, (size_t)objects * 16);
    n += (size_t)objects * 16;
    plan[n++] = (uint8_t)tasks;
    for (i = 0; i < tasks; i++) {
        plan[n++] = 0;
        plan[n++] = 90;
        plan[n++] = 0;
        plan[n++] = (uint8_t)(1 + i);
    }
    plan[n++] = (uint8_t)(uses / 256);
    plan[n++] = (uint8_t)(uses % 256);
    for (i = 0; i < uses; i++) {
        plan[n++] = (uint8_t)(i % tasks);
        plan[n++] = (uint8_t)(i / tasks % objects);
        plan[n++] = (uint8_t)(i / tasks / objects);
    }
    return n;
}

static void try_edges(void)
{
    static uint8_t plan[4096];
    size_t n;

    n = build(plan, 1, 1, 0);
    expect("the least plan", check(2, plan, n), 0);
    expect("without a use nothing clashes", ceiling(2, plan, n, 0, 1), 16);
    expect("nor delays", bound(2, plan, n, 0), 0);
    n = build(plan, 32, 16, 512);
    expect("the largest plan", check(2, plan, n), 0);
    expect("readers alone do not clash", ceiling(2, plan, n, 31, 0), 16);
    expect("a writer would with the highest", ceiling(2, plan, n, 31, 1), 0);
    expect("readers delay nobody", bound(2, plan, n, 0), 0);
    expect("exclusive, every lock reaches the highest", ceiling(1, plan, n, 31, 0), 0);
    expect("exclusive, the lowest delays longest", bound(1, plan, n, 0), 16);
    expect("and the one above it too", bound(1, plan, n, 14), 16);
    expect("the lowest is delayed by nobody", bound(1, plan, n, 15), 0);
    plan[n] = 0;
    expect("one byte more", check(2, plan, n + 1), -7);
    n = build(plan, 32, 16, 513);
    expect("513 uses", check(2, plan, n), -2);
    n = build(plan, 2, 2, 4);
    expect("two tasks read both", bound(2, plan, n, 0), 0);
    n = build(plan, 2, 2, 5);
    expect("and the higher writes one", ceiling(2, plan, n, 0, 0), 0);
    expect("so the lower one's read delays it", bound(2, plan, n, 0), 2);
    expect("not the other object's", ceiling(2, plan, n, 1, 0), 16);
}

/* The worked plan with a tape behind it, and what play answers. */
static int64_t play_tape(const char *tape, size_t length, uint8_t *sheet, size_t room)
{
    static uint8_t input[70000];

    memcpy(input, heading, sizeof heading);
    memcpy(input + sizeof heading, tape, length);
    return play(2, input, sizeof heading + length, sheet, room);
}

static void try_play(void)
{
    static char tape[70000];
    static uint8_t sheet[32 * 1000 + 1];
    int64_t written;
    size_t i;

    memset(sheet, '#', sizeof sheet);
    expect("no tape", play_tape("", 0, sheet, sizeof sheet), 0);
    expect("no tape needs no sheet", play(2, heading, sizeof heading, NULL, 0), 0);
    expect("nothing written", sheet[0], '#');
    expect("a line needs 32 bytes", play_tape("T", 1, sheet, 31), -19);
    expect("nothing written", sheet[0], '#');
    written = play_tape("T", 1, sheet, 32);
    expect("idle", written, 11);
    expect("the line", memcmp(sheet, "idle run -\n", 11), 0);
    expect("the rest stays", sheet[11], '#');
    written = play_tape("A 0\nT\nT\nT\n", 10, sheet, 4 * 32);
    expect("the budget", memcmp(sheet, "open run 0\nran 0 run 0\nran 0 run 0\nrefused 17 run 0\n", (size_t)written), 0);
    written = play_tape("A  0\n\nA 00\nA -0", 15, sheet, 4 * 32);
    expect("unreadable lines", written, 4 * 17);
    memset(tape, '\n', sizeof tape);
    memset(sheet, '#', sizeof sheet);
    expect("1,000 lines", play_tape(tape, 1000, sheet, 32000), 1000 * 17);
    memset(sheet, '#', sizeof sheet);
    expect("1,001 lines", play_tape(tape, 1001, sheet, sizeof sheet), -2);
    expect("nothing written", sheet[0], '#');
    memset(tape, 'A', sizeof tape);
    expect("60,000 bytes", play_tape(tape, 60000 - sizeof heading, sheet, 32), 17);
    expect("60,001 bytes", play_tape(tape, 60001 - sizeof heading, sheet, 32), -2);
    expect("rule before length", play(3, (const uint8_t *)tape, 60001, sheet, 32), -9);
    expect("length before plan", play(2, (const uint8_t *)tape, 60001, sheet, 32), -2);
    expect("plan before lines", play(2, (const uint8_t *)tape, 60000, sheet, 32), -2);
    expect("no plan", play(2, NULL, 0, sheet, 32), -1);
    for (i = 0; i < sizeof heading; i++)
        expect("a plan cut short", play(2, heading, i, sheet, 32), -1);
}

int main(void)
{
    expect("no bytes", check(2, NULL, 0), -1);
    expect("no bytes, no rule", check(3, NULL, 0), -9);
    expect("no bytes, ceiling", ceiling(2, NULL, 0, 0, 0), -1);
    expect("no bytes, bound", bound(2, NULL, 0, 0), -1);
    try_changes();
    try_heading();
    try_edges();
    try_play();
    return failures != 0;
}
