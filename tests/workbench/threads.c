/* The entries in threads: the stack that each of them takes, and all of them side by side. */
#define _POSIX_C_SOURCE 200809L
#include "expect.h"

#include <pthread.h>

enum { STACK = 8 * BURRBEECH_STACK_MAX, THREADS = 8, ROUNDS = 200 };

/* What one thread lends, and the last answer it got. */
struct lent {
    struct sheet sheet;
    uint32_t version;
    uint32_t policy;
    struct burrbeech_task list[BURRBEECH_TASKS_MAX];
    size_t tasks;
    uint8_t bytes[BURRBEECH_TIMES_BYTES];
    uint32_t times[BURRBEECH_TIMES_MAX];
    uint8_t text[BURRBEECH_REPORT_MAX];
    uint8_t converted[BURRBEECH_SHEET_MAX];
    uint8_t script[BURRBEECH_WORST_MAX];
    size_t script_len;
    uint8_t ticks[BURRBEECH_PLAYED_MAX];
    uint64_t answer;
};

static void check_sheet(struct lent *lent)
{
    lent->answer = burrbeech_check_sheet(lent->sheet.bytes, lent->sheet.len, lent->bytes, sizeof lent->bytes);
}

static void read_list(struct lent *lent)
{
    lent->answer = burrbeech_read_list(lent->sheet.bytes, lent->sheet.len, lent->list, BURRBEECH_TASKS_MAX);
}

static void write_list(struct lent *lent)
{
    lent->answer = burrbeech_write_list(lent->version, lent->policy, lent->list, lent->tasks, lent->sheet.bytes,
                                        sizeof lent->sheet.bytes);
}

/* To the other version. */
static void convert(struct lent *lent)
{
    lent->answer = burrbeech_convert(3 - lent->version, lent->sheet.bytes, lent->sheet.len, lent->converted,
                                     sizeof lent->converted);
}

static void analyse_list(struct lent *lent)
{
    lent->answer = burrbeech_analyse_list(lent->policy, lent->list, lent->tasks, lent->times, BURRBEECH_TIMES_MAX);
}

static void analyse_sheet(struct lent *lent)
{
    lent->answer = burrbeech_analyse_sheet(lent->sheet.bytes, lent->sheet.len, lent->times, BURRBEECH_TIMES_MAX);
}

static void report(struct lent *lent)
{
    lent->answer = burrbeech_report(lent->sheet.bytes, lent->sheet.len, lent->text, sizeof lent->text);
}

/* The worst run of a set that misses is what the other two entries play. */
static void worst_run(struct lent *lent)
{
    lent->answer = burrbeech_worst_run(lent->sheet.bytes, lent->sheet.len, lent->script, sizeof lent->script);
    lent->script_len = burrbeech_worst_run_length(lent->answer);
}

static void play(struct lent *lent)
{
    lent->answer = burrbeech_play(lent->sheet.bytes, lent->sheet.len, lent->script, lent->script_len);
}

static void trace(struct lent *lent)
{
    lent->answer = burrbeech_trace(lent->sheet.bytes, lent->sheet.len, lent->script, lent->script_len, lent->ticks,
                                   sizeof lent->ticks);
}

static void (*const entries[])(struct lent *) = {check_sheet,   read_list, write_list, convert, analyse_list,
                                                 analyse_sheet, report,    worst_run,  play,    trace};
static const char *const names[] = {"check_sheet",   "read_list", "write_list", "convert", "analyse_list",
                                    "analyse_sheet", "report",    "worst_run",  "play",    "trace"};
enum { ENTRIES = sizeof entries / sizeof *entries };

/* A set of sixteen tasks of eight equal frames, whose deadlines are their periods, and its sheet of this version. The
 * first task has a period of its own, and frames no longer than that. */
static struct lent *full_set(uint32_t version, uint32_t first_period, uint32_t frame)
{
    struct lent *lent = calloc(1, sizeof *lent);
    if (lent == NULL) {
        exit(2);
    }
    lent->version = version;
    lent->tasks = BURRBEECH_TASKS_MAX;
    for (size_t slot = 0; slot < BURRBEECH_TIMES_MAX; slot++) {
        struct burrbeech_task *record = &lent->list[slot / BURRBEECH_FRAMES_MAX];
        record->period = record == lent->list ? first_period : BURRBEECH_TICKS_MAX;
        record->frame_count = BURRBEECH_FRAMES_MAX;
        record->frames[slot % BURRBEECH_FRAMES_MAX] = frame < record->period ? frame : record->period;
        record->deadlines[slot % BURRBEECH_FRAMES_MAX] = record->period;
    }
    write_list(lent);
    lent->sheet.len = burrbeech_written_bytes(lent->answer);
    return lent;
}

/* A call in a thread, and the address in its stack from which on it took stack. */
struct call {
    void (*entry)(struct lent *);
    struct lent *lent;
    const unsigned char *top;
};

static void *called(void *argument)
{
    struct call *call = (struct call *)argument;
    unsigned char here = 0;
    call->top = &here;
    call->entry(call->lent);
    return NULL;
}

/* The bytes of stack that changed below the caller, in a thread on a stack of known content. */
static size_t stack_taken(void (*entry)(struct lent *), struct lent *lent)
{
    unsigned char *stack = malloc(STACK);
    pthread_attr_t attributes;
    pthread_t thread;
    struct call call = {entry, lent, NULL};
    if (stack == NULL || pthread_attr_init(&attributes) != 0 || pthread_attr_setstack(&attributes, stack, STACK) != 0) {
        exit(2);
    }
    memset(stack, BEFORE, STACK);
    if (pthread_create(&thread, &attributes, called, &call) != 0 || pthread_join(thread, NULL) != 0) {
        exit(2);
    }
    size_t low = 0;
    while (stack[low] == BEFORE) {
        low++;
    }
    size_t taken = (size_t)(call.top - (stack + low));
    pthread_attr_destroy(&attributes);
    free(stack);
    return taken;
}

static void try_stack(size_t entry, struct lent *const sets[], size_t count)
{
    size_t most = 0;
    for (size_t i = 0; i < count; i++) {
        size_t taken = stack_taken(entries[entry], sets[i]);
        most = taken > most ? taken : most;
    }
    printf("burrbeech_%s takes %zu bytes of stack\n", names[entry], most);
    expect("within BURRBEECH_STACK_MAX", most > 0 && most <= BURRBEECH_STACK_MAX);
}

/* Every entry, again and again; the answer at the end is the first round's, or 0 where a round differed. */
static void all_entries(struct lent *lent)
{
    uint64_t first[ENTRIES];
    bool same = true;
    for (size_t i = 0; i < (size_t)ROUNDS * ENTRIES; i++) {
        entries[i % ENTRIES](lent);
        first[i % ENTRIES] = i < ENTRIES ? lent->answer : first[i % ENTRIES];
        same = same && lent->answer == first[i % ENTRIES];
    }
    lent->answer = same;
}

static void try_side_by_side(void)
{
    pthread_t threads[THREADS];
    struct call calls[THREADS];
    for (size_t i = 0; i < THREADS; i++) {
        calls[i] = (struct call){all_entries, full_set(1 + (uint32_t)i % 2, 1000, (uint32_t)i + 1), NULL};
        if (pthread_create(&threads[i], NULL, called, &calls[i]) != 0) {
            exit(2);
        }
    }
    bool same = true;
    for (size_t i = 0; i < THREADS; i++) {
        same = pthread_join(threads[i], NULL) == 0 && calls[i].lent->answer == 1 && same;
        struct lent *alone = full_set(1 + (uint32_t)i % 2, 1000, (uint32_t)i + 1);
        report(alone);
        same = same && memcmp(alone->text, calls[i].lent->text, sizeof alone->text) == 0;
        convert(alone);
        same = same && burrbeech_refusal(alone->answer) == 0 &&
               memcmp(alone->converted, calls[i].lent->converted, sizeof alone->converted) == 0;
        free(alone);
        free(calls[i].lent);
    }
    expect("eight threads side by side get what each gets alone", same);
}

/* A set that costs many rounds and misses, and one that holds with the longest times; in both versions. */
int main(void)
{
    struct lent *sets[] = {full_set(1, 1, 1), full_set(1, BURRBEECH_TICKS_MAX, 65535), full_set(2, 1, 1),
                           full_set(2, BURRBEECH_TICKS_MAX, 65535)};
    for (size_t entry = 0; entry < ENTRIES; entry++) {
        try_stack(entry, sets, sizeof sets / sizeof *sets);
    }
    for (size_t i = 0; i < sizeof sets / sizeof *sets; i++) {
        free(sets[i]);
    }
    try_side_by_side();
    return finished();
}
