/* The entries on lent task records, from C: a workbench reads a sheet into its own array, changes it, analyses it and
 * writes it back, in either version; and the entry that converts a sheet. Tries them on case F, in the folder of the
 * case sheets that is the argument. */
#include "expect.h"

/* Two more than case F has. */
enum { ROOM = 4 };

static struct burrbeech_task list[ROOM];
static uint32_t times[BURRBEECH_TIMES_MAX];
static uint8_t back[BURRBEECH_SHEET_MAX];

static bool same_record(const struct burrbeech_task *task, uint32_t period, uint32_t deadline, uint32_t lock,
                        uint32_t frame)
{
    struct burrbeech_task expected = {period, lock, 1, {frame, 0, 0, 0, 0, 0, 0, 0}, {deadline, 0, 0, 0, 0, 0, 0, 0}};
    return memcmp(task, &expected, sizeof expected) == 0;
}

/* Whether the answer is this refusal of this task, and nothing more. */
static bool refused(uint64_t answer, uint32_t number, size_t task)
{
    return burrbeech_refusal(answer) == number && burrbeech_refusal_task(answer) == task && reason(answer, 0, 0, 0) &&
           burrbeech_detail(answer) == task;
}

static uint64_t analyse(uint32_t policy, size_t tasks, size_t room)
{
    memset(times, BEFORE, sizeof times);
    return burrbeech_analyse_list(policy, list, tasks, times, room);
}

static uint64_t write_back(uint32_t version, uint32_t policy, size_t tasks, size_t room)
{
    memset(back, BEFORE, sizeof back);
    return burrbeech_write_list(version, policy, list, tasks, back, room);
}

static uint64_t convert(uint32_t version, const struct sheet *sheet, size_t room)
{
    memset(back, BEFORE, sizeof back);
    return burrbeech_convert(version, sheet->bytes, sheet->len, back, room);
}

/* The sheet is there, and no byte past it. */
static bool written(uint64_t answer, const struct sheet *sheet)
{
    return burrbeech_refusal(answer) == 0 && burrbeech_written_bytes(answer) == sheet->len &&
           memcmp(back, sheet->bytes, sheet->len) == 0 && untouched(back + sheet->len, sizeof back - sheet->len);
}

/* The refusal alone, and nothing is written. */
static bool not_written(uint64_t answer, uint32_t number)
{
    return answer == number && untouched(back, sizeof back);
}

/* Leaves F's two records in the list. */
static void try_read(const struct sheet *f, const struct sheet *i)
{
    memset(list, BEFORE, sizeof list);
    expect("read: a list of one record is too short",
           burrbeech_read_list(f->bytes, f->len, list, 1) == BURRBEECH_REFUSAL_ROOM && untouched(list, sizeof list));
    expect("read: no list (NULL, 0) is too short",
           burrbeech_read_list(f->bytes, f->len, NULL, 0) == BURRBEECH_REFUSAL_ROOM);
    expect("read: no sheet (NULL, 0) is refused with 1",
           burrbeech_read_list(NULL, 0, list, ROOM) == BURRBEECH_REFUSAL_LENGTH && untouched(list, sizeof list));
    expect("read: I is refused with 11, task 0: frame 2, length 2, other frame 1",
           has_no_start(burrbeech_read_list(i->bytes, i->len, list, ROOM), 0, 2, 2, 1) && untouched(list, sizeof list));
    expect("read: frames 2, 1, 1, 2, 1, 3 with 11, task 2: frame 5, length 4, other frame 3",
           has_no_start(burrbeech_read_list(no_start.bytes, no_start.len, list, ROOM), 2, 5, 4, 3) &&
               untouched(list, sizeof list));
    uint64_t answer = burrbeech_read_list(f->bytes, f->len, list, ROOM);
    expect("read: F, two tasks, listed, version 1",
           burrbeech_refusal(answer) == 0 && burrbeech_read_tasks(answer) == 2 &&
               burrbeech_read_policy(answer) == BURRBEECH_POLICY_LISTED &&
               burrbeech_read_version(answer) == BURRBEECH_SHEET_VERSION_1 && burrbeech_detail(answer) == 0x010002);
    expect("read: its records", same_record(&list[0], 10, 4, 0, 2) && same_record(&list[1], 20, 20, 3, 5));
    expect("read: surplus records stay", untouched(&list[2], 2 * sizeof *list));
}

static void try_analyse(void)
{
    uint64_t answer = analyse(BURRBEECH_POLICY_LISTED, 2, BURRBEECH_TIMES_MAX);
    expect("analyse: F holds, two tasks, 4 and 7",
           burrbeech_analysed_holds(answer) && burrbeech_analysed_tasks(answer) == 2 &&
               burrbeech_analysed_time(times, 0, 0) == 4 && burrbeech_analysed_time(times, 0, 1) == 0 &&
               burrbeech_analysed_time(times, 1, 0) == 7);
    expect("analyse: surplus numbers stay", untouched(times + 16, sizeof times - 16 * sizeof *times));
    expect("analyse: room that just fits", burrbeech_analysed_holds(analyse(BURRBEECH_POLICY_LISTED, 2, 16)));
    expect("analyse: one number short is refused with 12",
           analyse(BURRBEECH_POLICY_LISTED, 2, 15) == BURRBEECH_REFUSAL_ROOM && untouched(times, sizeof times));
    expect("analyse: no record (NULL, 0) is refused with 6",
           burrbeech_analyse_list(0, NULL, 0, times, BURRBEECH_TIMES_MAX) == BURRBEECH_REFUSAL_TASK_COUNT);
    expect("analyse: policy 3 is refused with 4",
           analyse(3, 2, BURRBEECH_TIMES_MAX) == BURRBEECH_REFUSAL_POLICY && untouched(times, sizeof times));
    list[1].lock = 4;
    answer = analyse(BURRBEECH_POLICY_LISTED, 2, BURRBEECH_TIMES_MAX);
    expect("analyse: with a lock of 4 task 0 misses, blocker 1; task 1 has 7",
           burrbeech_analysed_missed(answer) && burrbeech_analysed_missed_task(answer) == 0 &&
               burrbeech_analysed_missed_blocker(answer) == 1 && burrbeech_analysed_time(times, 0, 0) == 0 &&
               burrbeech_analysed_time(times, 1, 0) == 7);
    list[1].lock = 3;
}

static void try_write(const struct sheet *f)
{
    expect("write: the same bytes, and surplus bytes stay",
           written(write_back(BURRBEECH_SHEET_VERSION_1, BURRBEECH_POLICY_LISTED, 2, sizeof back), f));
    expect("write: the same set in version 2",
           written(write_back(BURRBEECH_SHEET_VERSION_2, BURRBEECH_POLICY_LISTED, 2, sizeof back), &f_in_2));
    expect("write: room that just fits", written(write_back(1, BURRBEECH_POLICY_LISTED, 2, f->len), f) &&
                                             written(write_back(2, BURRBEECH_POLICY_LISTED, 2, f_in_2.len), &f_in_2));
    expect("write: one byte short is refused with 12",
           not_written(write_back(1, BURRBEECH_POLICY_LISTED, 2, f->len - 1), BURRBEECH_REFUSAL_ROOM) &&
               not_written(write_back(2, BURRBEECH_POLICY_LISTED, 2, f_in_2.len - 1), BURRBEECH_REFUSAL_ROOM));
    expect("write: no room (NULL, 0) is refused with 12",
           burrbeech_write_list(1, 0, list, 2, NULL, 0) == BURRBEECH_REFUSAL_ROOM);
    expect("write: no record (NULL, 0) is refused with 6",
           burrbeech_write_list(1, 0, NULL, 0, back, sizeof back) == BURRBEECH_REFUSAL_TASK_COUNT);
    expect("write: versions 0 and 3 are refused with 3, before all else",
           not_written(write_back(0, BURRBEECH_POLICY_LISTED, 2, sizeof back), BURRBEECH_REFUSAL_VERSION) &&
               burrbeech_write_list(3, 3, NULL, 0, NULL, 0) == BURRBEECH_REFUSAL_VERSION);
}

static void try_convert(const struct sheet *f, const struct sheet *i)
{
    expect("convert: F to version 2", written(convert(BURRBEECH_SHEET_VERSION_2, f, sizeof back), &f_in_2));
    expect("convert: and back", written(convert(BURRBEECH_SHEET_VERSION_1, &f_in_2, sizeof back), f));
    expect("convert: room that just fits", written(convert(2, f, f_in_2.len), &f_in_2));
    expect("convert: one byte short is refused with 12",
           not_written(convert(2, f, f_in_2.len - 1), BURRBEECH_REFUSAL_ROOM));
    expect("convert: no room (NULL, 0) is refused with 12",
           burrbeech_convert(2, f->bytes, f->len, NULL, 0) == BURRBEECH_REFUSAL_ROOM);
    expect("convert: a sheet of the version told is refused with 3",
           not_written(convert(1, f, sizeof back), BURRBEECH_REFUSAL_VERSION) &&
               not_written(convert(2, &f_in_2, sizeof back), BURRBEECH_REFUSAL_VERSION));
    expect("convert: versions 0 and 3 are refused with 3, before all else",
           not_written(convert(0, f, sizeof back), BURRBEECH_REFUSAL_VERSION) &&
               burrbeech_convert(3, NULL, 0, NULL, 0) == BURRBEECH_REFUSAL_VERSION);
    expect("convert: no sheet (NULL, 0) is refused with 1",
           burrbeech_convert(2, NULL, 0, back, sizeof back) == BURRBEECH_REFUSAL_LENGTH);
    expect("convert: I is refused with 11, task 0: frame 2, length 2, other frame 1",
           has_no_start(convert(2, i, 0), 0, 2, 2, 1) && untouched(back, sizeof back));
    expect("convert: a set that version 1 cannot hold is refused with 17, before the room",
           not_written(convert(1, &joystick, sizeof back), BURRBEECH_REFUSAL_DEADLINES) &&
               not_written(convert(1, &joystick, 0), BURRBEECH_REFUSAL_DEADLINES));
}

/* A deadline for each frame: read, analysed, and written in version 2 alone. */
static void try_deadlines(void)
{
    static const struct burrbeech_task low = {20, 3, 2, {5, 2}, {20, 4}};
    memset(list, BEFORE, sizeof list);
    uint64_t answer = burrbeech_read_list(joystick.bytes, joystick.len, list, ROOM);
    expect("deadlines: two tasks, listed, version 2", burrbeech_refusal(answer) == 0 &&
                                                          burrbeech_read_version(answer) == BURRBEECH_SHEET_VERSION_2 &&
                                                          burrbeech_detail(answer) == 0x020002);
    expect("deadlines: the records", same_record(&list[0], 10, 10, 0, 2) && memcmp(&list[1], &low, sizeof low) == 0 &&
                                         untouched(&list[2], 2 * sizeof *list));
    answer = analyse(BURRBEECH_POLICY_LISTED, 2, BURRBEECH_TIMES_MAX);
    expect("deadlines: the set holds with 4; 7 and 4",
           burrbeech_analysed_holds(answer) && burrbeech_analysed_time(times, 0, 0) == 4 &&
               burrbeech_analysed_time(times, 1, 0) == 7 && burrbeech_analysed_time(times, 1, 1) == 4);
    answer = analyse(BURRBEECH_POLICY_DEADLINE_MONOTONIC, 2, BURRBEECH_TIMES_MAX);
    expect("deadlines: by the smallest deadline task 1 is higher, with 5 and 2; 7",
           burrbeech_analysed_holds(answer) && burrbeech_analysed_time(times, 0, 0) == 7 &&
               burrbeech_analysed_time(times, 1, 0) == 5 && burrbeech_analysed_time(times, 1, 1) == 2);
    expect("deadlines: written in version 2", written(write_back(2, 0, 2, sizeof back), &joystick));
    expect("deadlines: version 1 cannot hold them, 17 before the room",
           not_written(write_back(1, 0, 2, sizeof back), BURRBEECH_REFUSAL_DEADLINES) &&
               not_written(write_back(1, 0, 2, 0), BURRBEECH_REFUSAL_DEADLINES));
    list[1].deadlines[1] = 3;
    answer = analyse(BURRBEECH_POLICY_LISTED, 2, BURRBEECH_TIMES_MAX);
    expect("deadlines: with 3 for its short frame task 1 misses, no blocker, and has no times",
           burrbeech_analysed_missed(answer) && burrbeech_analysed_missed_task(answer) == 1 &&
               burrbeech_analysed_missed_blocker(answer) == BURRBEECH_NO_BLOCKER &&
               burrbeech_analysed_time(times, 1, 0) == 0 && burrbeech_analysed_time(times, 1, 1) == 0);
}

/* Each other refusal that names a task, of task 1; the analysis and the writer refuse alike and change nothing. */
static void try_task(const char *what, struct burrbeech_task changed, uint32_t number)
{
    list[1] = changed;
    expect(what, refused(analyse(BURRBEECH_POLICY_LISTED, 2, BURRBEECH_TIMES_MAX), number, 1) &&
                     untouched(times, sizeof times) &&
                     refused(write_back(1, BURRBEECH_POLICY_LISTED, 2, sizeof back), number, 1) &&
                     refused(write_back(2, BURRBEECH_POLICY_LISTED, 2, sizeof back), number, 1) &&
                     untouched(back, sizeof back));
}

/* Frames without a start, of task 1; the analysis and the writer give the same reason and change nothing. */
static void try_frames(const char *what, struct burrbeech_task changed, size_t frame, size_t length, size_t other)
{
    list[1] = changed;
    expect(what, has_no_start(analyse(BURRBEECH_POLICY_LISTED, 2, BURRBEECH_TIMES_MAX), 1, frame, length, other) &&
                     untouched(times, sizeof times) &&
                     has_no_start(write_back(1, BURRBEECH_POLICY_LISTED, 2, sizeof back), 1, frame, length, other) &&
                     has_no_start(write_back(2, BURRBEECH_POLICY_LISTED, 2, sizeof back), 1, frame, length, other) &&
                     untouched(back, sizeof back));
}

int main(int argc, char **argv)
{
    if (argc != 2) {
        fprintf(stderr, "lists SHEETS   tries the list entries on the case sheets\n");
        return 2;
    }
    struct sheet f = case_sheet(argv[1], "f"), i = case_sheet(argv[1], "i");
    try_read(&f, &i);
    try_analyse();
    try_write(&f);
    try_convert(&f, &i);
    try_deadlines();
    try_task("no frame is refused with 7, task 1", (struct burrbeech_task){20, 3, 0, {5}, {20}},
             BURRBEECH_REFUSAL_FRAME_COUNT);
    try_task("nine frames are refused with 7, task 1", (struct burrbeech_task){20, 3, 9, {5}, {20}},
             BURRBEECH_REFUSAL_FRAME_COUNT);
    try_task("a deadline past the period is refused with 9, task 1", (struct burrbeech_task){20, 3, 1, {5}, {21}},
             BURRBEECH_REFUSAL_ILL_FORMED);
    try_task("a deadline below its own frame is refused with 9, task 1",
             (struct burrbeech_task){20, 3, 2, {5, 2}, {20, 1}}, BURRBEECH_REFUSAL_ILL_FORMED);
    try_task("a lock above the largest frame is refused with 10, task 1", (struct burrbeech_task){20, 6, 1, {5}, {20}},
             BURRBEECH_REFUSAL_LOCK);
    try_frames("frames 1, 2, 3 are refused with 11, task 1: frame 2, length 2, other frame 1",
               (struct burrbeech_task){20, 0, 3, {1, 2, 3}, {20, 19, 18}}, 2, 2, 1);
    try_frames("frames 2, 1, 1, 2, 1, 3 with 11, task 1: frame 5, length 4, other frame 3",
               (struct burrbeech_task){20, 0, 6, {2, 1, 1, 2, 1, 3}, {20, 20, 20, 20, 20, 20}}, 5, 4, 3);
    return finished();
}
