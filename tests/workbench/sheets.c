/* The entries on sheets, from C: burrbeech_check_sheet, burrbeech_analyse_sheet and burrbeech_report on the case
 * sheets, in the folder that is the argument. */
#include "expect.h"

/* Case F with a deadline of 21 ticks in task 1, one past its period, and a right check word. */
static const uint8_t late[25] = {0x10, 0x40, 0x00, 0x00, 0xA0, 0x00, 0x04, 0x00, 0x00, 0x01, 0x00, 0x00, 0x20,
                                 0x00, 0x14, 0x00, 0x01, 0x50, 0x00, 0x03, 0x10, 0x00, 0x05, 0xCC, 0x64};

static const char report_of_f[] = "holds 2\n0 10 4 2 4\n1 20 20 0 7\n";

static uint8_t bytes[BURRBEECH_TIMES_BYTES];
static uint32_t numbers[BURRBEECH_TIMES_MAX];
static uint8_t text[BURRBEECH_REPORT_MAX];

static uint32_t check(const struct sheet *sheet, size_t room)
{
    memset(bytes, BEFORE, sizeof bytes);
    return burrbeech_check_sheet(sheet->bytes, sheet->len, bytes, room);
}

static uint64_t analyse(const struct sheet *sheet, size_t room)
{
    memset(numbers, BEFORE, sizeof numbers);
    return burrbeech_analyse_sheet(sheet->bytes, sheet->len, numbers, room);
}

static uint64_t report(const struct sheet *sheet, size_t room)
{
    memset(text, BEFORE, sizeof text);
    return burrbeech_report(sheet->bytes, sheet->len, text, room);
}

/* The first times of the two tasks, each of one frame, and no byte past them. */
static bool checked_times(uint32_t first, uint32_t second)
{
    for (size_t frame = 0; frame < BURRBEECH_FRAMES_MAX; frame++) {
        if (burrbeech_check_time(bytes, 0, frame) != (frame == 0 ? first : 0) ||
            burrbeech_check_time(bytes, 1, frame) != (frame == 0 ? second : 0)) {
            return false;
        }
    }
    return untouched(bytes + 64, sizeof bytes - 64);
}

static bool analysed_times(uint32_t first, uint32_t second)
{
    for (size_t frame = 0; frame < BURRBEECH_FRAMES_MAX; frame++) {
        if (burrbeech_analysed_time(numbers, 0, frame) != (frame == 0 ? first : 0) ||
            burrbeech_analysed_time(numbers, 1, frame) != (frame == 0 ? second : 0)) {
            return false;
        }
    }
    return untouched(numbers + 16, sizeof numbers - 16 * sizeof *numbers);
}

/* The text is there, and no byte past it. */
static bool reported(uint64_t answer, const char *expected)
{
    size_t length = strlen(expected);
    return burrbeech_refusal(answer) == 0 && burrbeech_report_length(answer) == length &&
           memcmp(text, expected, length) == 0 && untouched(text + length, sizeof text - length);
}

static void try_check(const struct sheet *f, const struct sheet *g, const struct sheet *bent)
{
    expect("check: F holds with 4 and 7", burrbeech_check_holds(check(f, sizeof bytes)) && checked_times(4, 7));
    expect("check: F in room that just fits", burrbeech_check_holds(check(f, 64)) && checked_times(4, 7));
    expect("check: F in room one byte short is refused with 12",
           burrbeech_check_refusal(check(f, 63)) == BURRBEECH_REFUSAL_ROOM && untouched(bytes, sizeof bytes));
    uint32_t answer = check(g, sizeof bytes);
    expect("check: G misses, task 0, blocker 1; task 1 has 7",
           answer == 101 && burrbeech_check_missed_task(answer) == 0 && burrbeech_check_missed_blocker(answer) == 1 &&
               checked_times(0, 7));
    expect("check: a changed bit is refused with 2",
           burrbeech_check_refusal(check(bent, sizeof bytes)) == BURRBEECH_REFUSAL_CHECK_WORD &&
               untouched(bytes, sizeof bytes));
    expect("check: no sheet (NULL, 0) is refused with 1",
           burrbeech_check_sheet(NULL, 0, bytes, sizeof bytes) == BURRBEECH_REFUSAL_LENGTH &&
               untouched(bytes, sizeof bytes));
    expect("check: no room (NULL, 0) is refused with 12",
           burrbeech_check_sheet(f->bytes, f->len, NULL, 0) == BURRBEECH_REFUSAL_ROOM);
    expect("check: nothing at all is refused with 1",
           burrbeech_check_sheet(NULL, 0, NULL, 0) == BURRBEECH_REFUSAL_LENGTH);
    expect("check: frames without a start are refused with 11 alone",
           check(&no_start, sizeof bytes) == BURRBEECH_REFUSAL_NOT_MONOTONIC && untouched(bytes, sizeof bytes));
    /* zeros behind a right check word keep it right */
    expect("check: 733 bytes are refused with 1, F and zeros up to 732 with 8",
           burrbeech_check_sheet(f->bytes, sizeof f->bytes, bytes, sizeof bytes) == BURRBEECH_REFUSAL_LENGTH &&
               burrbeech_check_sheet(f->bytes, sizeof f->bytes - 1, bytes, sizeof bytes) == BURRBEECH_REFUSAL_RECORDS);
    expect("check: F in version 2 holds with 4 and 7",
           burrbeech_check_holds(check(&f_in_2, sizeof bytes)) && checked_times(4, 7));
}

static void try_analyse(const struct sheet *f, const struct sheet *g, const struct sheet *d)
{
    uint64_t answer = analyse(f, BURRBEECH_TIMES_MAX);
    expect("analyse: F holds, two tasks, 4 and 7",
           burrbeech_analysed_holds(answer) && burrbeech_analysed_tasks(answer) == 2 && analysed_times(4, 7));
    expect("analyse: F in room that just fits", burrbeech_analysed_holds(analyse(f, 16)) && analysed_times(4, 7));
    expect("analyse: F in room one number short is refused with 12",
           analyse(f, 15) == BURRBEECH_REFUSAL_ROOM && untouched(numbers, sizeof numbers));
    answer = analyse(g, BURRBEECH_TIMES_MAX);
    expect("analyse: G misses, two tasks, task 0, blocker 1; task 1 has 7",
           burrbeech_analysed_missed(answer) && burrbeech_analysed_tasks(answer) == 2 &&
               burrbeech_analysed_missed_task(answer) == 0 && burrbeech_analysed_missed_blocker(answer) == 1 &&
               analysed_times(0, 7));
    answer = analyse(d, BURRBEECH_TIMES_MAX);
    expect("analyse: D misses, task 1, no blocker; task 0 has 3",
           burrbeech_analysed_missed(answer) && burrbeech_analysed_missed_task(answer) == 1 &&
               burrbeech_analysed_missed_blocker(answer) == BURRBEECH_NO_BLOCKER && analysed_times(3, 0));
}

/* A deadline for each frame. */
static void try_deadlines(void)
{
    expect("check: deadlines 20 and 4 hold, with 4; 7 and 4",
           burrbeech_check_holds(check(&joystick, 64)) && burrbeech_check_time(bytes, 0, 0) == 4 &&
               burrbeech_check_time(bytes, 1, 0) == 7 && burrbeech_check_time(bytes, 1, 1) == 4 &&
               burrbeech_check_time(bytes, 1, 2) == 0);
    expect("analyse: the same",
           burrbeech_analysed_holds(analyse(&joystick, 16)) && burrbeech_analysed_time(numbers, 0, 0) == 4 &&
               burrbeech_analysed_time(numbers, 1, 0) == 7 && burrbeech_analysed_time(numbers, 1, 1) == 4);
    expect("report: the smallest deadline stands in the task's line",
           reported(report(&joystick, sizeof text), "holds 2\n0 10 10 2 4\n1 20 4 0 7 4\n"));
    expect("report: F in version 2 as in version 1", reported(report(&f_in_2, sizeof text), report_of_f));
}

static void try_refused(const struct sheet *f, const struct sheet *i)
{
    uint64_t answer = analyse(i, BURRBEECH_TIMES_MAX);
    expect("analyse: I is refused with 11, task 0: frame 2, length 2, other frame 1",
           has_no_start(answer, 0, 2, 2, 1) && untouched(numbers, sizeof numbers));
    expect("analyse: as one number", answer == UINT64_C(0x010202000B));
    expect("analyse: frames 2, 1, 1, 2, 1, 3 with 11, task 2: frame 5, length 4, other frame 3",
           has_no_start(analyse(&no_start, BURRBEECH_TIMES_MAX), 2, 5, 4, 3) && untouched(numbers, sizeof numbers));
    expect("analyse: 11 comes before the room", has_no_start(analyse(&no_start, 0), 2, 5, 4, 3));
    answer = burrbeech_analyse_sheet(late, sizeof late, numbers, BURRBEECH_TIMES_MAX);
    expect("analyse: a deadline past the period is refused with 9, task 1",
           burrbeech_refusal(answer) == BURRBEECH_REFUSAL_ILL_FORMED && burrbeech_refusal_task(answer) == 1 &&
               untouched(numbers, sizeof numbers));
    expect("analyse: that comes before the room", burrbeech_analyse_sheet(late, sizeof late, NULL, 0) == answer);
    expect("analyse: no sheet (NULL, 0) is refused with 1",
           burrbeech_analyse_sheet(NULL, 0, numbers, BURRBEECH_TIMES_MAX) == BURRBEECH_REFUSAL_LENGTH &&
               untouched(numbers, sizeof numbers));
    expect("analyse: no room (NULL, 0) is refused with 12",
           burrbeech_analyse_sheet(f->bytes, f->len, NULL, 0) == BURRBEECH_REFUSAL_ROOM);
}

static void try_report(const struct sheet *f, const struct sheet *g, const struct sheet *i)
{
    size_t length = strlen(report_of_f);
    expect("report: F, byte for byte", reported(report(f, sizeof text), report_of_f));
    expect("report: F in room that just fits", reported(report(f, length), report_of_f));
    expect("report: F in room one byte short is refused with 12",
           report(f, length - 1) == BURRBEECH_REFUSAL_ROOM && untouched(text, sizeof text));
    expect("report: F with no room (NULL, 0) is refused with 12",
           burrbeech_report(f->bytes, f->len, NULL, 0) == BURRBEECH_REFUSAL_ROOM);
    expect("report: G", reported(report(g, sizeof text), "missed 2 0 1\n0 10 4 3 missed\n1 20 20 0 7\n"));
    expect("report: I is refused, and has a report", reported(report(i, sizeof text), "refused 11\n"));
    expect("report: of frames without a start 11 alone",
           reported(report(&no_start, sizeof text), "refused 11\n"));
    expect("report: of no sheet",
           (memset(text, BEFORE, sizeof text), reported(burrbeech_report(NULL, 0, text, sizeof text), "refused 1\n")));
}

int main(int argc, char **argv)
{
    if (argc != 2) {
        fprintf(stderr, "sheets SHEETS   tries the entries on the case sheets\n");
        return 2;
    }
    struct sheet d = case_sheet(argv[1], "d"), f = case_sheet(argv[1], "f"), g = case_sheet(argv[1], "g"),
                 i = case_sheet(argv[1], "i");
    struct sheet bent = f;
    bent.bytes[bent.len - 3] ^= 1;
    try_check(&f, &g, &bent);
    try_analyse(&f, &g, &d);
    try_deadlines();
    try_refused(&f, &i);
    try_report(&f, &g, &i);
    return finished();
}
