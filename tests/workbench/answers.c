/* The decoders of the header, on every answer that there is. */
#include "expect.h"

static uint64_t success(uint64_t detail)
{
    return detail << 8;
}

static uint64_t refused(uint32_t number, uint64_t detail)
{
    return number | detail << 8;
}

/* A refusal is no success of any entry: nothing was read, written or analysed. */
static bool says_nothing_else(uint64_t answer)
{
    return burrbeech_read_tasks(answer) == 0 && burrbeech_read_policy(answer) == 0 &&
           burrbeech_read_version(answer) == 0 && burrbeech_written_bytes(answer) == 0 &&
           burrbeech_report_length(answer) == 0 && burrbeech_analysed_tasks(answer) == 0 &&
           burrbeech_analysed_outcome(answer) == 0 && !burrbeech_analysed_holds(answer) &&
           !burrbeech_analysed_missed(answer) && burrbeech_analysed_missed_task(answer) == 0 &&
           burrbeech_analysed_missed_blocker(answer) == BURRBEECH_NO_BLOCKER && burrbeech_play_tick(answer) == 0 &&
           burrbeech_play_task(answer) == BURRBEECH_NO_TASK && !burrbeech_play_missed(answer) &&
           !burrbeech_play_done(answer) && burrbeech_worst_run_length(answer) == 0;
}

/* Whether there is a refusal of this number. */
static bool is_refusal(uint32_t number)
{
    return (number >= 1 && number <= 14) || number == 17;
}

/* All but 14, whose detail is an item. */
static bool refusals(void)
{
    for (uint32_t number = 1; number <= 17; number++) {
        if (number == 14 || !is_refusal(number)) {
            continue;
        }
        bool names = number == 7 || (number >= 9 && number <= 11);
        for (size_t task = 0; task < (names ? BURRBEECH_TASKS_MAX : 1); task++) {
            uint64_t answer = refused(number, task);
            if (burrbeech_refusal(answer) != number || burrbeech_refusal_names_task(number) != names ||
                burrbeech_refusal_task(answer) != task || burrbeech_detail(answer) != task ||
                !says_nothing_else(answer)) {
                return false;
            }
        }
    }
    return true;
}

/* 11 of every task, with every frame, length and other frame below 8. */
static bool reasons(void)
{
    for (uint64_t n = 0; n < BURRBEECH_TASKS_MAX * 8 * 8 * 8; n++) {
        size_t task = n / 512, frame = n / 64 % 8, length = n / 8 % 8, other = n % 8;
        uint64_t answer = refused(11, task | frame << 8 | length << 16 | other << 24);
        if (burrbeech_refusal(answer) != 11 || burrbeech_refusal_task(answer) != task ||
            !reason(answer, frame, length, other) || !says_nothing_else(answer)) {
            return false;
        }
    }
    return true;
}

/* No other answer has a reason, whatever its detail. */
static bool no_other_reason(void)
{
    for (uint32_t number = 0; number <= 99; number++) {
        if (number != 11 && !reason(refused(number, UINT64_MAX >> 8), 0, 0, 0)) {
            return false;
        }
    }
    return true;
}

/* 14 of every item that there can be, by steps; no other answer has an item, whatever its detail. */
static bool items(void)
{
    for (uint64_t item = 0; item < BURRBEECH_TASKS_MAX + BURRBEECH_ENTRIES_MAX; item += item < 1000 ? 1 : 997) {
        uint64_t answer = refused(14, item);
        if (burrbeech_refusal(answer) != 14 || burrbeech_refusal_item(answer) != item ||
            burrbeech_refusal_names_task(14) || burrbeech_refusal_task(answer) != 0 || !says_nothing_else(answer)) {
            return false;
        }
    }
    for (uint32_t number = 0; number <= 99; number++) {
        if (number != 14 && burrbeech_refusal_item(refused(number, UINT64_MAX >> 8)) != 0) {
            return false;
        }
    }
    return true;
}

static bool plays(void)
{
    for (uint64_t tick = 0; tick <= BURRBEECH_PLAYED_MAX; tick += tick < 1000 ? 1 : 997) {
        for (size_t task = 0; task <= BURRBEECH_NO_TASK; task++) {
            uint64_t answer = success(tick | (uint64_t)task << 32);
            bool missed = task != BURRBEECH_NO_TASK;
            if (burrbeech_refusal(answer) != 0 || burrbeech_play_tick(answer) != tick ||
                burrbeech_play_task(answer) != task || burrbeech_play_missed(answer) != missed ||
                burrbeech_play_done(answer) != !missed) {
                return false;
            }
        }
    }
    return burrbeech_worst_run_length(success(0)) == 0 &&
           burrbeech_worst_run_length(success(BURRBEECH_WORST_MAX)) == BURRBEECH_WORST_MAX;
}

static bool traced_ticks(void)
{
    for (uint8_t task = 0; task <= BURRBEECH_NO_TASK; task++) {
        uint8_t locked = (uint8_t)(task + BURRBEECH_LOCKED);
        if (burrbeech_trace_task(task) != task || burrbeech_trace_locked(task) ||
            burrbeech_trace_task(locked) != task || !burrbeech_trace_locked(locked)) {
            return false;
        }
    }
    return true;
}

/* A list of so many tasks, read from a sheet with this policy and of this version. */
static bool one_list(size_t tasks, uint32_t policy, uint32_t version)
{
    uint64_t answer = success(tasks | (uint64_t)policy << 8 | (uint64_t)version << 16);
    return burrbeech_refusal(answer) == 0 && burrbeech_read_tasks(answer) == tasks &&
           burrbeech_read_policy(answer) == policy && burrbeech_read_version(answer) == version;
}

static bool lists_read(void)
{
    for (uint32_t policy = 0; policy <= 2; policy++) {
        for (size_t tasks = 1; tasks <= BURRBEECH_TASKS_MAX; tasks++) {
            if (!one_list(tasks, policy, BURRBEECH_SHEET_VERSION_1) ||
                !one_list(tasks, policy, BURRBEECH_SHEET_VERSION_2)) {
                return false;
            }
        }
    }
    return true;
}

static bool lengths(void)
{
    for (size_t bytes = 0; bytes <= BURRBEECH_REPORT_MAX; bytes++) {
        uint64_t answer = success(bytes);
        if (burrbeech_refusal(answer) != 0 || burrbeech_written_bytes(answer) != bytes ||
            burrbeech_report_length(answer) != bytes) {
            return false;
        }
    }
    return true;
}

/* A miss of task p with blocker b by both numberings, in a set of so many tasks. */
static bool one_miss(size_t p, size_t b, size_t tasks)
{
    uint64_t answer = success((1 + 17 * p + b) | (uint64_t)tasks << 16);
    uint32_t checked = (uint32_t)(100 + 17 * p + b);
    return burrbeech_refusal(answer) == 0 && !burrbeech_analysed_holds(answer) && burrbeech_analysed_missed(answer) &&
           burrbeech_analysed_missed_task(answer) == p && burrbeech_analysed_missed_blocker(answer) == b &&
           burrbeech_analysed_tasks(answer) == tasks && !burrbeech_check_holds(checked) &&
           burrbeech_check_refusal(checked) == 0 && burrbeech_check_missed(checked) &&
           burrbeech_check_missed_task(checked) == p && burrbeech_check_missed_blocker(checked) == b;
}

static bool misses(void)
{
    for (size_t outcome = 0; outcome < BURRBEECH_TASKS_MAX * (BURRBEECH_NO_BLOCKER + 1); outcome++) {
        size_t p = outcome / 17, b = outcome % 17;
        if (!one_miss(p, b, p + 1) || !one_miss(p, b, BURRBEECH_TASKS_MAX)) {
            return false;
        }
    }
    return true;
}

static bool sets_that_hold(void)
{
    for (size_t tasks = 1; tasks <= BURRBEECH_TASKS_MAX; tasks++) {
        uint64_t answer = success((uint64_t)tasks << 16);
        if (!burrbeech_analysed_holds(answer) || burrbeech_analysed_missed(answer) ||
            burrbeech_analysed_tasks(answer) != tasks ||
            burrbeech_analysed_missed_blocker(answer) != BURRBEECH_NO_BLOCKER) {
            return false;
        }
    }
    return burrbeech_check_holds(0) && !burrbeech_check_missed(0) && burrbeech_check_refusal(0) == 0;
}

static bool refusals_of_a_check(void)
{
    for (uint32_t number = 1; number <= 12; number++) {
        if (burrbeech_check_holds(number) || burrbeech_check_missed(number) ||
            burrbeech_check_refusal(number) != number ||
            burrbeech_check_missed_blocker(number) != BURRBEECH_NO_BLOCKER) {
            return false;
        }
    }
    return true;
}

/* No two refusals have the same words, nor one of them those of no refusal; all other numbers have the same words. */
static bool words(void)
{
    for (uint32_t number = 1; number <= 99; number++) {
        bool unknown = strcmp(burrbeech_refusal_words(number), burrbeech_refusal_words(99)) == 0;
        if (unknown == is_refusal(number)) {
            return false;
        }
        for (uint32_t other = 0; other < number && !unknown; other++) {
            if (strcmp(burrbeech_refusal_words(number), burrbeech_refusal_words(other)) == 0) {
                return false;
            }
        }
    }
    return true;
}

/* The last slot of the last task, with a different digit in each byte. */
static bool times(void)
{
    uint8_t bytes[BURRBEECH_TIMES_BYTES] = {0};
    uint32_t numbers[BURRBEECH_TIMES_MAX] = {0};
    static const uint8_t last[4] = {0x01, 0x23, 0x45, 0x67};
    memcpy(bytes + BURRBEECH_TIMES_BYTES - sizeof last, last, sizeof last);
    numbers[BURRBEECH_TIMES_MAX - 1] = 0x01234567;
    return burrbeech_check_time(bytes, 15, 7) == 0x01234567 && burrbeech_check_time(bytes, 15, 6) == 0 &&
           burrbeech_analysed_time(numbers, 15, 7) == 0x01234567 && burrbeech_analysed_time(numbers, 15, 6) == 0;
}

/* A walk over the eight frames of a task ends there, though the next task has times too. */
static bool walks_end(void)
{
    uint8_t bytes[BURRBEECH_TIMES_BYTES];
    uint32_t numbers[BURRBEECH_TIMES_MAX];
    memset(bytes, 1, sizeof bytes);
    memset(numbers, 1, sizeof numbers);
    size_t of_bytes = 0, of_numbers = 0;
    while (of_bytes < BURRBEECH_TIMES_MAX && burrbeech_check_time(bytes, 0, of_bytes) != 0) {
        of_bytes++;
    }
    while (of_numbers < BURRBEECH_TIMES_MAX && burrbeech_analysed_time(numbers, 0, of_numbers) != 0) {
        of_numbers++;
    }
    return of_bytes == BURRBEECH_FRAMES_MAX && of_numbers == BURRBEECH_FRAMES_MAX &&
           burrbeech_check_time(bytes, 15, SIZE_MAX) == 0 && burrbeech_analysed_time(numbers, 15, SIZE_MAX) == 0;
}

int main(void)
{
    expect("refusals, with the task where they name one", refusals());
    expect("the parts of every reason of 11", reasons());
    expect("no other answer has them", no_other_reason());
    expect("the item of 14, and no other answer has one", items());
    expect("ends of plays, and bytes of worst runs", plays());
    expect("ticks of a trace", traced_ticks());
    expect("lists read", lists_read());
    expect("bytes written and lengths of reports", lengths());
    expect("misses of every task with every blocker", misses());
    expect("sets that hold", sets_that_hold());
    expect("refusals of burrbeech_check_sheet", refusals_of_a_check());
    expect("words for each refusal", words());
    expect("times by task and frame", times());
    expect("walks over the frames of a task", walks_end());
    return finished();
}
