/* The entries on run scripts, from C: burrbeech_play, burrbeech_worst_run and burrbeech_trace on the case sheets, in
 * the folder that is the argument. */
#include "expect.h"

/* The worst run of case G: task 1 at tick 0 with work 4 and lock 4, task 0 at tick 1 with work 2. */
static const uint8_t worst_of_g[22] = {0x00, 0x00, 0x00, 0x02, 0x10, 0x00, 0x00, 0x00, 0x00, 0x40, 0x00,
                                       0x04, 0x00, 0x00, 0x01, 0x00, 0x00, 0x20, 0x00, 0x00, 0xEF, 0x2A};

/* T 8 D 8 C 2; below it T 6, frames 3 and 1 with the deadlines 6 and 2, in version 2. Frame 1 of task 1 has no response
 * time within its deadline. */
static const struct sheet short_frame = {{0x20, 0x40, 0x00, 0x00, 0x80, 0x00, 0x00, 0x10, 0x00, 0x02,
                                          0x00, 0x00, 0x80, 0x00, 0x06, 0x00, 0x00, 0x02, 0x00, 0x00,
                                          0x30, 0x00, 0x06, 0x00, 0x00, 0x10, 0x00, 0x02, 0x7C, 0x0F},
                                         30};

/* Its worst run, of that frame: task 0 at tick 1 with work 2, task 1 at tick 1 with work 1. */
static const uint8_t worst_of_short_frame[22] = {0x01, 0x00, 0x00, 0x02, 0x00, 0x00, 0x01, 0x00, 0x00, 0x20, 0x00,
                                                 0x00, 0x10, 0x00, 0x01, 0x00, 0x00, 0x10, 0x00, 0x00, 0x08, 0xA3};

/* No entry, for two tasks. */
static const uint8_t empty[6] = {0x00, 0x00, 0x00, 0x00, 0x84, 0xC0};

static uint8_t script[64];
static uint8_t ticks[16];

static uint64_t play(const struct sheet *sheet, const uint8_t *bytes, size_t length)
{
    return burrbeech_play(sheet->bytes, sheet->len, bytes, length);
}

static uint64_t worst_run(const struct sheet *sheet, size_t room)
{
    memset(script, BEFORE, sizeof script);
    return burrbeech_worst_run(sheet->bytes, sheet->len, script, room);
}

static uint64_t trace(const struct sheet *sheet, size_t length, size_t room)
{
    memset(ticks, BEFORE, sizeof ticks);
    return burrbeech_trace(sheet->bytes, sheet->len, worst_of_g, length, ticks, room);
}

/* The script is there, and no byte past it. */
static bool written(uint64_t answer)
{
    return burrbeech_refusal(answer) == 0 && burrbeech_worst_run_length(answer) == sizeof worst_of_g &&
           memcmp(script, worst_of_g, sizeof worst_of_g) == 0 &&
           untouched(script + sizeof worst_of_g, sizeof script - sizeof worst_of_g);
}

/* Task 0 misses at 5. */
static bool missed(uint64_t answer)
{
    return burrbeech_play_missed(answer) && !burrbeech_play_done(answer) && burrbeech_play_task(answer) == 0 &&
           burrbeech_play_tick(answer) == 5 && burrbeech_detail(answer) == 5;
}

/* Four locked ticks of task 1 and one of task 0, and no byte past them. */
static bool traced(uint64_t answer)
{
    for (size_t tick = 0; tick < 5; tick++) {
        if (burrbeech_trace_task(ticks[tick]) != (tick < 4 ? 1 : 0) ||
            burrbeech_trace_locked(ticks[tick]) != (tick < 4)) {
            return false;
        }
    }
    return missed(answer) && untouched(ticks + 5, sizeof ticks - 5);
}

static bool refused(uint64_t answer, uint32_t number, uint64_t detail)
{
    return burrbeech_refusal(answer) == number && burrbeech_detail(answer) == detail;
}

static void try_play(const struct sheet *f, const struct sheet *g, const struct sheet *i)
{
    expect("play: the worst run of G ends with the miss of task 0 at 5",
           missed(play(g, worst_of_g, sizeof worst_of_g)));
    expect("play: its lock of 4 is refused on F with 14, item 2",
           refused(play(f, worst_of_g, sizeof worst_of_g), BURRBEECH_REFUSAL_ITEM, 2));
    uint64_t answer = play(f, empty, sizeof empty);
    expect("play: no entry is done at 0", burrbeech_play_done(answer) && burrbeech_play_tick(answer) == 0 &&
                                              burrbeech_play_task(answer) == BURRBEECH_NO_TASK);
    expect("play: a byte too few is refused with 13", refused(play(g, worst_of_g, 21), BURRBEECH_REFUSAL_SCRIPT, 0));
    expect("play: no script (NULL, 0) is refused with 13", refused(play(g, NULL, 0), BURRBEECH_REFUSAL_SCRIPT, 0));
    expect("play: the sheet's own refusal comes first",
           has_no_start(play(i, NULL, 0), 0, 2, 2, 1) &&
               refused(burrbeech_play(NULL, 0, worst_of_g, sizeof worst_of_g), BURRBEECH_REFUSAL_LENGTH, 0));
}

static void try_worst_run(const struct sheet *f, const struct sheet *g, const struct sheet *i)
{
    expect("worst run: that of G, byte for byte", written(worst_run(g, sizeof script)));
    expect("worst run: that of G in room that just fits", written(worst_run(g, sizeof worst_of_g)));
    expect("worst run: that of G in room one byte short is refused with 12",
           refused(worst_run(g, sizeof worst_of_g - 1), BURRBEECH_REFUSAL_ROOM, 0) && untouched(script, sizeof script));
    expect("worst run: that of G in no room (NULL, 0) is refused with 12",
           refused(burrbeech_worst_run(g->bytes, g->len, NULL, 0), BURRBEECH_REFUSAL_ROOM, 0));
    expect("worst run: F holds, and nothing is written",
           worst_run(f, sizeof script) == 0 && untouched(script, sizeof script));
    expect("worst run: F holds in any room", burrbeech_worst_run(f->bytes, f->len, NULL, 0) == 0);
    expect("worst run: I is refused with 11", has_no_start(worst_run(i, sizeof script), 0, 2, 2, 1) &&
                                                  untouched(script, sizeof script));
}

static void try_trace(const struct sheet *f, const struct sheet *g, const struct sheet *i)
{
    expect("trace: the ticks of G's worst run", traced(trace(g, sizeof worst_of_g, sizeof ticks)));
    expect("trace: in room that just fits", traced(trace(g, sizeof worst_of_g, 5)));
    expect("trace: in room one byte short it is refused with 12",
           refused(trace(g, sizeof worst_of_g, 4), BURRBEECH_REFUSAL_ROOM, 0) && untouched(ticks, sizeof ticks));
    expect("trace: 13, 14 and the sheet's own come before 12",
           refused(trace(g, 21, 0), BURRBEECH_REFUSAL_SCRIPT, 0) &&
               refused(trace(f, sizeof worst_of_g, 0), BURRBEECH_REFUSAL_ITEM, 2) &&
               has_no_start(trace(i, sizeof worst_of_g, 0), 0, 2, 2, 1) && untouched(ticks, sizeof ticks));
    expect("trace: no tick needs no room",
           burrbeech_play_done(burrbeech_trace(f->bytes, f->len, empty, sizeof empty, NULL, 0)));
}

/* A job is due by the deadline of its frame. */
static void try_deadlines(void)
{
    expect("worst run: that of the short frame, byte for byte",
           burrbeech_worst_run_length(worst_run(&short_frame, sizeof script)) == sizeof worst_of_short_frame &&
               memcmp(script, worst_of_short_frame, sizeof worst_of_short_frame) == 0);
    uint64_t answer = play(&short_frame, worst_of_short_frame, sizeof worst_of_short_frame);
    expect("play: it ends with the miss of task 1 at 1 + 2",
           burrbeech_play_missed(answer) && burrbeech_play_task(answer) == 1 && burrbeech_play_tick(answer) == 3);
}

int main(int argc, char **argv)
{
    if (argc != 2) {
        fprintf(stderr, "runs SHEETS\n");
        return 2;
    }
    struct sheet f = case_sheet(argv[1], "f"), g = case_sheet(argv[1], "g"), i = case_sheet(argv[1], "i");
    try_play(&f, &g, &i);
    try_worst_run(&f, &g, &i);
    try_trace(&f, &g, &i);
    try_deadlines();
    return finished();
}
