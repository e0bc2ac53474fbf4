/* Burrbeech: task sheets, their analysis and plays of their runs, for C and C++.
 *
 *     cc main.c $(pkg-config --cflags --libs burrbeech)
 *
 * A task sheet is 15 to 732 bytes of packed bits with a policy and 1 to 16 tasks. In version 1 a task has one deadline
 * for all its frames, in version 2 each frame has its own; every entry that takes a sheet takes both. Tasks and frames
 * count from 0, times are ticks. A run script is packed bits too: the releases of a run of a sheet's set, see
 * burrbeech_play.
 *
 * What a caller may pass: every byte string, every list, every number in every field and every size of buffer. What is
 * no sheet or no set is refused, by a number. A length counts the elements of its buffer: bytes, records or 32-bit
 * numbers. NULL with length 0 is an empty buffer; NULL with any other length is not allowed. The buffers of one call
 * must not overlap. Bytes may stand at any address, records and numbers where their C types may (a multiple of 4).
 *
 * What a call does: it reads and writes the buffers that it is lent and nothing else. A refused call changes none of
 * them, and what an answer does not need of them keeps its content. There is no state, no allocation, no errno and no
 * signal. Any number of threads may be in any of the entries at a time; memory that a call reads nobody may write
 * meanwhile, and memory that it writes nobody may touch. A call is content with BURRBEECH_STACK_MAX bytes of stack.
 * Most calls take microseconds; the costliest sheet found takes a third of a second. The time of a play grows
 * with its ticks and with the bytes of its script.
 *
 * The libraries are for x86-64 and its System V calling convention. */
#ifndef BURRBEECH_H
#define BURRBEECH_H

#include <stdbool.h>
#include <stddef.h>
#include <stdint.h>

/* The version, stated here and nowhere else. Until 1.0.0 a new minor version may change the entries. */
#define BURRBEECH_VERSION_MAJOR 0
#define BURRBEECH_VERSION_MINOR 4
#define BURRBEECH_VERSION_PATCH 0
#define BURRBEECH_VERSION "0.4.0"

/* Limits. */
#define BURRBEECH_SHEET_MIN 15         /* bytes of the shortest sheet */
#define BURRBEECH_SHEET_MAX 732        /* bytes of the longest sheet; of a file read one more, to refuse a longer one */
#define BURRBEECH_TASKS_MAX 16         /* tasks of a set */
#define BURRBEECH_FRAMES_MAX 8         /* frames of a task, and slots for its times */
#define BURRBEECH_TICKS_MAX 1048575    /* the longest period, deadline, lock or frame time */
#define BURRBEECH_TIMES_MAX 128        /* numbers that hold the times of every set: 8 for each task */
#define BURRBEECH_TIMES_BYTES 512      /* bytes that hold the times of every set: 4 for each number */
#define BURRBEECH_REPORT_MAX 2048      /* bytes that hold every report */
#define BURRBEECH_NO_BLOCKER 16        /* stands for the blocker of a miss that has none */
#define BURRBEECH_ENTRIES_MAX 16777215 /* entries of a run script */
#define BURRBEECH_SCRIPT_MAX 134217733 /* bytes of the longest run script */
#define BURRBEECH_WORST_MAX 8388741    /* bytes that hold the worst run of every set */
#define BURRBEECH_PLAYED_MAX 2097150   /* ticks of the longest play: bytes that hold every trace */
#define BURRBEECH_NO_TASK 16           /* stands for the task of a play without a miss, and for that of an idle tick */
#define BURRBEECH_LOCKED 32            /* what the byte of a tick in a locked stretch has above its task */
#define BURRBEECH_STACK_MAX 32768      /* bytes of stack that every call is content with */

/* What is turned away, by number. Numbers up to 99 are kept for refusals. */
enum burrbeech_refusal_number {
    BURRBEECH_REFUSAL_LENGTH = 1,
    BURRBEECH_REFUSAL_CHECK_WORD = 2,
    BURRBEECH_REFUSAL_VERSION = 3,
    BURRBEECH_REFUSAL_POLICY = 4,
    BURRBEECH_REFUSAL_BITS = 5,
    BURRBEECH_REFUSAL_TASK_COUNT = 6,
    BURRBEECH_REFUSAL_FRAME_COUNT = 7, /* names a task */
    BURRBEECH_REFUSAL_RECORDS = 8,
    BURRBEECH_REFUSAL_ILL_FORMED = 9,     /* names a task */
    BURRBEECH_REFUSAL_LOCK = 10,          /* names a task */
    BURRBEECH_REFUSAL_NOT_MONOTONIC = 11, /* names a task, and says why it has no start frame */
    BURRBEECH_REFUSAL_ROOM = 12,
    BURRBEECH_REFUSAL_SCRIPT = 13,   /* of a run script: length, fill or check word */
    BURRBEECH_REFUSAL_ITEM = 14,     /* of a run script: names an item, a first frame or an entry */
    BURRBEECH_REFUSAL_DEADLINES = 17 /* of a set that is to be written in version 1 */
};

/* The versions of a sheet. */
enum burrbeech_sheet_version {
    BURRBEECH_SHEET_VERSION_1 = 1, /* one deadline for all frames of a task */
    BURRBEECH_SHEET_VERSION_2 = 2  /* a deadline for each frame */
};

/* What puts the tasks in priority order; where keys are equal, the lower task number is higher. */
enum burrbeech_policy_number {
    BURRBEECH_POLICY_LISTED = 0,            /* task 0 is highest */
    BURRBEECH_POLICY_RATE_MONOTONIC = 1,    /* the shorter period is higher */
    BURRBEECH_POLICY_DEADLINE_MONOTONIC = 2 /* the shorter deadline is higher; a task's smallest counts */
};

/* A task record: frame k has the time frames[k] and the deadline deadlines[k]. Slots past frame_count are not read, and
 * are 0 when a record is filled. */
struct burrbeech_task {
    uint32_t period;
    uint32_t lock;
    uint32_t frame_count;
    uint32_t frames[BURRBEECH_FRAMES_MAX];
    uint32_t deadlines[BURRBEECH_FRAMES_MAX];
};

/* The record as the libraries were built with it, on a machine that they were built for. */
#if defined(__cplusplus) && __cplusplus >= 201103L
#define BURRBEECH_FACT(name, fact) static_assert(fact, #name)
#elif defined(__STDC_VERSION__) && __STDC_VERSION__ >= 201112L
#define BURRBEECH_FACT(name, fact) _Static_assert(fact, #name)
#else
#define BURRBEECH_FACT(name, fact) typedef char name[(fact) ? 1 : -1]
#endif
BURRBEECH_FACT(burrbeech_task_has_76_bytes, sizeof(struct burrbeech_task) == 76);
BURRBEECH_FACT(burrbeech_size_has_8_bytes, sizeof(size_t) == 8);
#undef BURRBEECH_FACT

/* Marks an entry: a function of the library. The compiler says so where an answer is dropped. */
#if defined(__GNUC__)
#define BURRBEECH_ENTRY __attribute__((warn_unused_result))
#else
#define BURRBEECH_ENTRY
#endif

#ifdef __cplusplus
extern "C" {
#endif

/* ---- The entries ------------------------------------------------------------------------------------------------ */

/* Analyses a sheet and writes the response times as bytes: for a sheet of n tasks the first 32 * n bytes of times hold
 * eight times for each task in task-number order, frame by frame, four bytes each, high byte first;
 * burrbeech_check_time takes one. A task passes if the response time of each frame is within that frame's deadline. A
 * slot without a frame holds 0, and so do all eight slots of a task that does not pass.
 *
 * Answers 0 if the set holds; 1 to 12 for a refusal, by its number (12: times_len is below 32 * n); 100 + 17 * p + b if
 * task p misses with blocker b (16 for none), p being the first task in priority order that does not pass. The
 * functions burrbeech_check_* take the answer apart. burrbeech_analyse_sheet says more: the task count, the task that a
 * refusal names, and of 11 why. */
BURRBEECH_ENTRY uint32_t burrbeech_check_sheet(const uint8_t *sheet, size_t sheet_len, uint8_t *times,
                                               size_t times_len);

/* Every entry below answers one number: answer & 0xFF is 0, or the number of the refusal, 1 to 99; answer >> 8 is the
 * detail. The detail of refusals 7, 9 and 10 is the task in bits 0 to 7, that of 11 the task in bits 0 to 7 and why it
 * has no start frame in bits 8 to 31, that of 14 the item, that of the others is 0; the bits above are 0. The detail of
 * success stands with each entry. The functions further down take answers apart, so that no caller has to.
 *
 * A frame's sum at a length is the sum of so many frames from it on, going round. A start frame has, at each length up
 * to the number of frames, a sum that is at least that of every other frame; a task without one is not accumulatively
 * monotonic. Why it has none: in bits 8 to 15 of the detail stands its lowest-numbered largest frame, in bits 16 to 23
 * the shortest length at which another frame's sum is greater than that frame's, in bits 24 to 31 the lowest-numbered
 * such other frame. */

/* Reads a sheet of n tasks into the first n records of list; of version 1 each frame gets its task's deadline.
 * The detail is n in bits 0 to 7, the policy in bits 8 to 15 and the sheet's version in bits 16 to 23; the bits above
 * are 0 and kept for later.
 * Refuses as the sheet says, last 12: list_len is below n. */
BURRBEECH_ENTRY uint64_t burrbeech_read_list(const uint8_t *sheet, size_t sheet_len, struct burrbeech_task *list,
                                             size_t list_len);

/* Writes the set of all list_len records as a sheet of this version, with its check word.
 * The detail is the number of bytes written.
 * Refuses first with 3: the version is neither 1 nor 2; with 4, 6, 7, 9, 10 and 11 as the set says; with 17: the
 * version is 1 and some task's deadlines are not all equal; last 12: sheet_len is below the sheet's length. */
BURRBEECH_ENTRY uint64_t burrbeech_write_list(uint32_t version, uint32_t policy, const struct burrbeech_task *list,
                                              size_t list_len, uint8_t *sheet, size_t sheet_len);

/* Converts a sheet of the other version to this version: the same policy and tasks, with a check word of its own. A
 * sheet of version 1 that is not refused can always be converted; there and back gives the same bytes.
 * The detail is the number of bytes written to out.
 * Refuses first with 3: the version is neither 1 nor 2; then as the sheet says, where 3 also means that the sheet is
 * not of the other version; with 17: the version is 1 and some task's deadlines are not all equal; last 12: out_len is
 * below the converted sheet's length. */
BURRBEECH_ENTRY uint64_t burrbeech_convert(uint32_t version, const uint8_t *sheet, size_t sheet_len, uint8_t *out,
                                           size_t out_len);

/* Analyses the set of all n = list_len records and writes the response times to the first 8 * n numbers of times: eight
 * for each task in task-number order, frame by frame; 0 in a slot without a frame, and in all eight slots of a task
 * that does not pass. The detail is the outcome in bits 0 to 15, 0 if the set holds and 1 + 17 * p + b if task p misses
 * with blocker b (16 for none), p being the first task in priority order that does not pass; and n in bits 16 to 23.
 * Refuses with 4, 6, 7, 9, 10 and 11 as the set says, last 12: times_len is below 8 * n. */
BURRBEECH_ENTRY uint64_t burrbeech_analyse_list(uint32_t policy, const struct burrbeech_task *list, size_t list_len,
                                                uint32_t *times, size_t times_len);

/* Analyses the set of a sheet of n tasks: times and detail as burrbeech_analyse_list has them.
 * Refuses as the sheet says, last 12: times_len is below 8 * n. */
BURRBEECH_ENTRY uint64_t burrbeech_analyse_sheet(const uint8_t *sheet, size_t sheet_len, uint32_t *times,
                                                 size_t times_len);

/* Writes the report on a sheet to text: ASCII lines, each with its line feed, and no 0 byte behind them. The deadline
 * in a task's line is the smallest of its frames.
 * The detail is their length, at most BURRBEECH_REPORT_MAX.
 * A refused sheet has a report too ("refused" and the number), so that the one refusal is 12: text_len is below the
 * length. */
BURRBEECH_ENTRY uint64_t burrbeech_report(const uint8_t *sheet, size_t sheet_len, uint8_t *text, size_t text_len);

/* Run scripts. A script says one run of a sheet's set. It is packed bits like the sheet, most significant bit first and
 * without gaps: for each task of the sheet, in task-number order, a first frame (4 bits); the count of the entries (24
 * bits); the entries, each a task (4 bits), a tick, work and a lock (20 bits each); zero bits up to a whole byte; and
 * the sheet's check word over all of it (16 bits). docs/SCRIPT.md shows one byte by byte.
 *
 * An entry releases a job of its task at its tick. A task's first job takes its first frame, later jobs the following
 * frames, going round. Each time the job is picked outside a locked stretch it starts one of its lock's length, which
 * ends early with the job; a lock of 0 or 1 starts none.
 *
 * What is refused of a script, after all that is refused of the sheet: 13, its length, fill or check word is wrong for
 * this sheet; 14, an item is out of range, out of order or against a run rule. Items are the first frames and the
 * entries, counted together from 0; the first that is wrong is named. A first frame is below the task's frame count. An
 * entry's task is below the task count and its lock at most the task's (1 is above 0); entries go by tick, then by task
 * number, and no two have both the same; a task's entries are at least its period apart; work is at most the time of
 * the job's frame.
 *
 * A play goes tick by tick. A moment k is the start of tick k and the end of tick k - 1. At each moment misses are
 * looked at first: a job misses that has work left at its tick plus its frame's deadline. The play stops at the first
 * miss, of several at one moment that of the lowest task number, or when all jobs are done. */

/* Plays a script on the set of a sheet.
 * The detail is the moment at which the play stops in bits 0 to 31, and the task that misses then, or
 * BURRBEECH_NO_TASK if all jobs are done, in bits 32 to 39; the bits above are 0. Without entries the moment is 0.
 * Refuses as the sheet says, then with 13 and 14 as the script says. */
BURRBEECH_ENTRY uint64_t burrbeech_play(const uint8_t *sheet, size_t sheet_len, const uint8_t *script,
                                        size_t script_len);

/* Writes the worst run of a set that misses as a script: that of the first frame without a response time of the task
 * that the analysis names. Its play stops with a miss of that task at 1 plus that frame's deadline.
 * The detail is the number of bytes written; 0 if the set holds, of which nothing is written, whatever the room.
 * Refuses as the sheet says, last 12: the set misses and script_len is below the script's length, which is at most
 * BURRBEECH_WORST_MAX. */
BURRBEECH_ENTRY uint64_t burrbeech_worst_run(const uint8_t *sheet, size_t sheet_len, uint8_t *script,
                                             size_t script_len);

/* Plays a script as burrbeech_play does, and writes what each tick has to the first bytes of ticks, as many as the
 * moment at which the play stops: the number of the task that has the tick, or BURRBEECH_NO_TASK for an idle one, and
 * BURRBEECH_LOCKED more in a locked stretch, from its first tick on.
 * The detail is that of burrbeech_play.
 * Refuses as burrbeech_play does, last 12: ticks_len is below that moment. */
BURRBEECH_ENTRY uint64_t burrbeech_trace(const uint8_t *sheet, size_t sheet_len, const uint8_t *script,
                                         size_t script_len, uint8_t *ticks, size_t ticks_len);

/* ---- Taking answers apart: every entry but burrbeech_check_sheet ------------------------------------------------- */

/* The number of the refusal, 0 for success. */
static inline uint32_t burrbeech_refusal(uint64_t answer)
{
    return (uint32_t)(answer & 0xFF);
}

/* What the entry says beside success or the refusal's number. */
static inline uint64_t burrbeech_detail(uint64_t answer)
{
    return answer >> 8;
}

/* Whether a refusal of this number names a task. */
static inline bool burrbeech_refusal_names_task(uint32_t refusal)
{
    return refusal == BURRBEECH_REFUSAL_FRAME_COUNT || refusal == BURRBEECH_REFUSAL_ILL_FORMED ||
           refusal == BURRBEECH_REFUSAL_LOCK || refusal == BURRBEECH_REFUSAL_NOT_MONOTONIC;
}

/* The task that a refusal names; 0 where it names none. */
static inline size_t burrbeech_refusal_task(uint64_t answer)
{
    return burrbeech_refusal_names_task(burrbeech_refusal(answer)) ? (size_t)(burrbeech_detail(answer) & 0xFF) : 0;
}

/* Of refusal 11 the lowest-numbered largest frame; 0 for every other answer. */
static inline size_t burrbeech_refusal_frame(uint64_t answer)
{
    return burrbeech_refusal(answer) == BURRBEECH_REFUSAL_NOT_MONOTONIC
               ? (size_t)(burrbeech_detail(answer) >> 8 & 0xFF)
               : 0;
}

/* Of refusal 11 the shortest length at which another frame's sum is greater, 2 to 7; 0 for every other answer. */
static inline size_t burrbeech_refusal_length(uint64_t answer)
{
    return burrbeech_refusal(answer) == BURRBEECH_REFUSAL_NOT_MONOTONIC
               ? (size_t)(burrbeech_detail(answer) >> 16 & 0xFF)
               : 0;
}

/* Of refusal 11 the lowest-numbered frame with a greater sum at that length; 0 for every other answer. */
static inline size_t burrbeech_refusal_other_frame(uint64_t answer)
{
    return burrbeech_refusal(answer) == BURRBEECH_REFUSAL_NOT_MONOTONIC
               ? (size_t)(burrbeech_detail(answer) >> 24 & 0xFF)
               : 0;
}

/* Of refusal 14 the item of the script, first frames and entries counted together; 0 for every other answer. */
static inline size_t burrbeech_refusal_item(uint64_t answer)
{
    return burrbeech_refusal(answer) == BURRBEECH_REFUSAL_ITEM ? (size_t)burrbeech_detail(answer) : 0;
}

/* What a refusal of this number says, in a few words. */
static inline const char *burrbeech_refusal_words(uint32_t refusal)
{
    switch (refusal) {
    case 0: return "not refused";
    case BURRBEECH_REFUSAL_LENGTH: return "shorter than 15 or longer than 732 bytes";
    case BURRBEECH_REFUSAL_CHECK_WORD: return "check word wrong";
    case BURRBEECH_REFUSAL_VERSION: return "version neither 1 nor 2, or not the converter's";
    case BURRBEECH_REFUSAL_POLICY: return "policy not 0, 1 or 2";
    case BURRBEECH_REFUSAL_BITS: return "a spare or fill bit set";
    case BURRBEECH_REFUSAL_TASK_COUNT: return "task count 0 or over 16";
    case BURRBEECH_REFUSAL_FRAME_COUNT: return "frame count 0 or over 8";
    case BURRBEECH_REFUSAL_RECORDS: return "records run past the check word, or 8 or more bits remain after the last";
    case BURRBEECH_REFUSAL_ILL_FORMED: return "a task out of range or not well formed";
    case BURRBEECH_REFUSAL_LOCK: return "lock above the largest frame";
    case BURRBEECH_REFUSAL_NOT_MONOTONIC: return "not accumulatively monotonic";
    case BURRBEECH_REFUSAL_ROOM: return "lent room too small";
    case BURRBEECH_REFUSAL_SCRIPT: return "length, fill or check word of the script wrong";
    case BURRBEECH_REFUSAL_ITEM:
        return "a first frame or an entry of the script out of range, out of order or against a run rule";
    case BURRBEECH_REFUSAL_DEADLINES: return "a set that version 1 cannot hold: the deadlines of a task differ";
    default: return "a refusal that this version does not know";
    }
}

/* burrbeech_read_list: the task count; 0 for a refusal. */
static inline size_t burrbeech_read_tasks(uint64_t answer)
{
    return burrbeech_refusal(answer) == 0 ? (size_t)(burrbeech_detail(answer) & 0xFF) : 0;
}

/* burrbeech_read_list: the policy; 0 for a refusal. */
static inline uint32_t burrbeech_read_policy(uint64_t answer)
{
    return burrbeech_refusal(answer) == 0 ? (uint32_t)(burrbeech_detail(answer) >> 8 & 0xFF) : 0;
}

/* burrbeech_read_list: the version of the sheet; 0 for a refusal. */
static inline uint32_t burrbeech_read_version(uint64_t answer)
{
    return burrbeech_refusal(answer) == 0 ? (uint32_t)(burrbeech_detail(answer) >> 16 & 0xFF) : 0;
}

/* burrbeech_write_list and burrbeech_convert: the bytes written; 0 for a refusal. */
static inline size_t burrbeech_written_bytes(uint64_t answer)
{
    return burrbeech_refusal(answer) == 0 ? (size_t)burrbeech_detail(answer) : 0;
}

/* burrbeech_report: the bytes of the text; 0 for a refusal. */
static inline size_t burrbeech_report_length(uint64_t answer)
{
    return burrbeech_refusal(answer) == 0 ? (size_t)burrbeech_detail(answer) : 0;
}

/* burrbeech_analyse_list and burrbeech_analyse_sheet: the task count; 0 for a refusal. */
static inline size_t burrbeech_analysed_tasks(uint64_t answer)
{
    return burrbeech_refusal(answer) == 0 ? (size_t)(burrbeech_detail(answer) >> 16 & 0xFF) : 0;
}

/* The outcome of an analysis: 1 + 17 * p + b for a miss, 0 if the set holds; also 0 for a refusal. */
static inline size_t burrbeech_analysed_outcome(uint64_t answer)
{
    return burrbeech_refusal(answer) == 0 ? (size_t)(burrbeech_detail(answer) & 0xFFFF) : 0;
}

/* Whether the set was analysed and holds. */
static inline bool burrbeech_analysed_holds(uint64_t answer)
{
    return burrbeech_refusal(answer) == 0 && burrbeech_analysed_outcome(answer) == 0;
}

/* Whether the set was analysed and misses. */
static inline bool burrbeech_analysed_missed(uint64_t answer)
{
    return burrbeech_analysed_outcome(answer) != 0;
}

/* The first task in priority order that does not pass; 0 where there is no miss. */
static inline size_t burrbeech_analysed_missed_task(uint64_t answer)
{
    size_t outcome = burrbeech_analysed_outcome(answer);
    return outcome == 0 ? 0 : (outcome - 1) / (BURRBEECH_NO_BLOCKER + 1);
}

/* The blocker of that task, or BURRBEECH_NO_BLOCKER; this one also where there is no miss. */
static inline size_t burrbeech_analysed_missed_blocker(uint64_t answer)
{
    size_t outcome = burrbeech_analysed_outcome(answer);
    return outcome == 0 ? BURRBEECH_NO_BLOCKER : (outcome - 1) % (BURRBEECH_NO_BLOCKER + 1);
}

/* The response time of a frame, in the numbers that an analysis left. The task is below the task count. The time is 0
 * where there is no such frame, whatever its number, and where the task does not pass. */
static inline uint32_t burrbeech_analysed_time(const uint32_t *times, size_t task, size_t frame)
{
    return frame < BURRBEECH_FRAMES_MAX ? times[BURRBEECH_FRAMES_MAX * task + frame] : 0;
}

/* burrbeech_play and burrbeech_trace: the moment at which the play stops; 0 for a refusal. */
static inline uint32_t burrbeech_play_tick(uint64_t answer)
{
    return burrbeech_refusal(answer) == 0 ? (uint32_t)(burrbeech_detail(answer) & 0xFFFFFFFF) : 0;
}

/* The task that misses then, or BURRBEECH_NO_TASK; this one also for a refusal. */
static inline size_t burrbeech_play_task(uint64_t answer)
{
    return burrbeech_refusal(answer) == 0 ? (size_t)(burrbeech_detail(answer) >> 32 & 0xFF) : BURRBEECH_NO_TASK;
}

/* Whether the script was played and a job misses. */
static inline bool burrbeech_play_missed(uint64_t answer)
{
    return burrbeech_play_task(answer) != BURRBEECH_NO_TASK;
}

/* Whether the script was played and all jobs are done. */
static inline bool burrbeech_play_done(uint64_t answer)
{
    return burrbeech_refusal(answer) == 0 && !burrbeech_play_missed(answer);
}

/* burrbeech_worst_run: the bytes of the script; 0 if the set holds, and for a refusal. */
static inline size_t burrbeech_worst_run_length(uint64_t answer)
{
    return burrbeech_refusal(answer) == 0 ? (size_t)burrbeech_detail(answer) : 0;
}

/* The task that has a tick, by the byte that burrbeech_trace left, or BURRBEECH_NO_TASK for an idle tick. */
static inline size_t burrbeech_trace_task(uint8_t tick)
{
    return (size_t)(tick & (BURRBEECH_LOCKED - 1));
}

/* Whether the tick is in a locked stretch. */
static inline bool burrbeech_trace_locked(uint8_t tick)
{
    return (tick & BURRBEECH_LOCKED) != 0;
}

/* ---- Taking the answer of burrbeech_check_sheet apart ------------------------------------------------------------ */

/* Misses are numbered from here on. */
#define BURRBEECH_CHECK_MISSES 100

/* Whether the set holds. */
static inline bool burrbeech_check_holds(uint32_t answer)
{
    return answer == 0;
}

/* The number of the refusal, 0 where nothing was refused. */
static inline uint32_t burrbeech_check_refusal(uint32_t answer)
{
    return answer < BURRBEECH_CHECK_MISSES ? answer : 0;
}

/* Whether the set misses. */
static inline bool burrbeech_check_missed(uint32_t answer)
{
    return answer >= BURRBEECH_CHECK_MISSES;
}

/* The first task in priority order that does not pass; 0 where there is no miss. */
static inline size_t burrbeech_check_missed_task(uint32_t answer)
{
    return burrbeech_check_missed(answer) ? (answer - BURRBEECH_CHECK_MISSES) / (BURRBEECH_NO_BLOCKER + 1) : 0;
}

/* The blocker of that task, or BURRBEECH_NO_BLOCKER; this one also where there is no miss. */
static inline size_t burrbeech_check_missed_blocker(uint32_t answer)
{
    return burrbeech_check_missed(answer) ? (answer - BURRBEECH_CHECK_MISSES) % (BURRBEECH_NO_BLOCKER + 1)
                                          : BURRBEECH_NO_BLOCKER;
}

/* The response time of a frame, in the bytes that burrbeech_check_sheet left. The task is below the task count. The
 * time is 0 where there is no such frame, whatever its number, and where the task does not pass. */
static inline uint32_t burrbeech_check_time(const uint8_t *times, size_t task, size_t frame)
{
    const uint8_t *high = times + 4 * (BURRBEECH_FRAMES_MAX * task + (frame < BURRBEECH_FRAMES_MAX ? frame : 0));
    uint32_t time = (uint32_t)high[0] << 24 | (uint32_t)high[1] << 16 | (uint32_t)high[2] << 8 | (uint32_t)high[3];
    return frame < BURRBEECH_FRAMES_MAX ? time : 0;
}

#ifdef __cplusplus
}
#endif

#endif
