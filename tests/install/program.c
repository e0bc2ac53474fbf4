/* Every entry, from C, against the installed header and library: says what they answer on the sheets of cases F, G and
 * I, of case N, which is in version 2, and of J with other deadlines, in the folder that is the argument. With
 * --version it says the header's version, by its numbers and as text; with --refusals the header's words for each
 * number. */
#include <burrbeech.h>

#include <stdio.h>
#include <stdlib.h>
#include <string.h>

struct sheet {
    const char *name;
    uint8_t bytes[BURRBEECH_SHEET_MAX + 1];
    size_t len;
};

static void read_sheet(const char *folder, struct sheet *sheet)
{
    char path[4096];
    snprintf(path, sizeof path, "%s/%s.sheet", folder, sheet->name);
    FILE *file = fopen(path, "rb");
    if (file == NULL) {
        perror(path);
        exit(3);
    }
    sheet->len = fread(sheet->bytes, 1, sizeof sheet->bytes, file);
    fclose(file);
}

static void print_check(const struct sheet *sheet)
{
    uint8_t times[BURRBEECH_TIMES_BYTES];
    uint32_t answer = burrbeech_check_sheet(sheet->bytes, sheet->len, times, sizeof times);
    if (burrbeech_check_refusal(answer) != 0) {
        printf("%s checked: refused %u\n", sheet->name, (unsigned)burrbeech_check_refusal(answer));
    } else if (burrbeech_check_missed(answer)) {
        printf("%s checked: missed %zu %zu\n", sheet->name, burrbeech_check_missed_task(answer),
               burrbeech_check_missed_blocker(answer));
    } else {
        printf("%s checked: holds, %u in task 1\n", sheet->name, (unsigned)burrbeech_check_time(times, 1, 0));
    }
}

/* The number, the task and, of 11, why. */
static void print_refusal(uint64_t answer)
{
    printf("refused %u, task %zu", (unsigned)burrbeech_refusal(answer), burrbeech_refusal_task(answer));
    if (burrbeech_refusal_length(answer) != 0) {
        printf(", frame %zu, length %zu, other frame %zu", burrbeech_refusal_frame(answer),
               burrbeech_refusal_length(answer), burrbeech_refusal_other_frame(answer));
    }
    printf("\n");
}

static void print_analysis(const char *name, const char *what, uint64_t answer, const uint32_t *times)
{
    printf("%s %s: ", name, what);
    if (burrbeech_refusal(answer) != 0) {
        print_refusal(answer);
        return;
    }
    if (burrbeech_analysed_missed(answer)) {
        printf("missed %zu %zu,", burrbeech_analysed_missed_task(answer), burrbeech_analysed_missed_blocker(answer));
    } else {
        printf("holds,");
    }
    for (size_t task = 0; task < burrbeech_analysed_tasks(answer); task++) {
        printf(" %u", (unsigned)burrbeech_analysed_time(times, task, 0));
    }
    printf("\n");
}

static const char *same_bytes(const struct sheet *sheet, const uint8_t *bytes, size_t length)
{
    return length == sheet->len && memcmp(bytes, sheet->bytes, length) == 0 ? "the same" : "other ones";
}

static void print_lists(const struct sheet *sheet)
{
    struct burrbeech_task list[BURRBEECH_TASKS_MAX];
    uint32_t times[BURRBEECH_TIMES_MAX];
    uint8_t back[BURRBEECH_SHEET_MAX];
    uint64_t answer = burrbeech_read_list(sheet->bytes, sheet->len, list, BURRBEECH_TASKS_MAX);
    size_t tasks = burrbeech_read_tasks(answer);
    uint32_t policy = burrbeech_read_policy(answer), version = burrbeech_read_version(answer);
    printf("%s read: refusal %u, %zu tasks, policy %u, version %u\n", sheet->name, (unsigned)burrbeech_refusal(answer),
           tasks, (unsigned)policy, (unsigned)version);
    print_analysis(sheet->name, "list", burrbeech_analyse_list(policy, list, tasks, times, BURRBEECH_TIMES_MAX), times);
    answer = burrbeech_write_list(version, policy, list, tasks, back, sizeof back);
    size_t written = burrbeech_written_bytes(answer);
    printf("%s written: refusal %u, %zu bytes, %s\n", sheet->name, (unsigned)burrbeech_refusal(answer), written,
           same_bytes(sheet, back, written));
}

/* To version 2 and back. */
static void print_converted(const struct sheet *sheet)
{
    uint8_t there[BURRBEECH_SHEET_MAX], back[BURRBEECH_SHEET_MAX];
    uint64_t answer = burrbeech_convert(BURRBEECH_SHEET_VERSION_2, sheet->bytes, sheet->len, there, sizeof there);
    size_t length = burrbeech_written_bytes(answer);
    printf("%s converted: refusal %u, %zu bytes\n", sheet->name, (unsigned)burrbeech_refusal(answer), length);
    answer = burrbeech_convert(BURRBEECH_SHEET_VERSION_1, there, length, back, sizeof back);
    printf("%s and back: refusal %u, %s\n", sheet->name, (unsigned)burrbeech_refusal(answer),
           same_bytes(sheet, back, burrbeech_written_bytes(answer)));
}

/* The set with each frame's time as its deadline: only version 2 can hold it. */
static void print_deadlines(const struct sheet *sheet)
{
    struct burrbeech_task list[BURRBEECH_TASKS_MAX];
    uint32_t times[BURRBEECH_TIMES_MAX];
    uint8_t back[BURRBEECH_SHEET_MAX];
    uint64_t answer = burrbeech_read_list(sheet->bytes, sheet->len, list, BURRBEECH_TASKS_MAX);
    size_t tasks = burrbeech_read_tasks(answer);
    for (size_t task = 0; task < tasks; task++) {
        memcpy(list[task].deadlines, list[task].frames, sizeof list[task].deadlines);
    }
    answer = burrbeech_analyse_list(BURRBEECH_POLICY_LISTED, list, tasks, times, BURRBEECH_TIMES_MAX);
    print_analysis(sheet->name, "with its times as deadlines", answer, times);
    answer = burrbeech_write_list(BURRBEECH_SHEET_VERSION_1, 0, list, tasks, back, sizeof back);
    printf("%s in version 1: refusal %u\n", sheet->name, (unsigned)burrbeech_refusal(answer));
    answer = burrbeech_write_list(BURRBEECH_SHEET_VERSION_2, 0, list, tasks, back, sizeof back);
    printf("%s in version 2: %zu bytes\n", sheet->name, burrbeech_written_bytes(answer));
}

/* The worst run, its play and the ticks of it; the room is enough for the cases. */
static void print_runs(const struct sheet *sheet)
{
    uint8_t script[64], ticks[64];
    size_t length = burrbeech_worst_run_length(burrbeech_worst_run(sheet->bytes, sheet->len, script, sizeof script));
    printf("%s worst run: %zu bytes\n", sheet->name, length);
    uint64_t answer = burrbeech_play(sheet->bytes, sheet->len, script, length);
    if (burrbeech_refusal(answer) != 0) {
        printf("%s played: refused %u, item %zu\n", sheet->name, (unsigned)burrbeech_refusal(answer),
               burrbeech_refusal_item(answer));
        return;
    }
    printf("%s played: task %zu at %u\n", sheet->name, burrbeech_play_task(answer),
           (unsigned)burrbeech_play_tick(answer));
    answer = burrbeech_trace(sheet->bytes, sheet->len, script, length, ticks, sizeof ticks);
    printf("%s traced:", sheet->name);
    for (size_t tick = 0; tick < burrbeech_play_tick(answer); tick++) {
        printf(" %zu%s", burrbeech_trace_task(ticks[tick]), burrbeech_trace_locked(ticks[tick]) ? "L" : "");
    }
    printf("\n");
}

static void print_sheet(const struct sheet *sheet)
{
    uint32_t times[BURRBEECH_TIMES_MAX];
    uint8_t text[BURRBEECH_REPORT_MAX];
    print_check(sheet);
    print_analysis(sheet->name, "sheet", burrbeech_analyse_sheet(sheet->bytes, sheet->len, times, BURRBEECH_TIMES_MAX),
                   times);
    print_lists(sheet);
    print_converted(sheet);
    size_t length = burrbeech_report_length(burrbeech_report(sheet->bytes, sheet->len, text, sizeof text));
    fwrite(text, 1, length, stdout);
    print_runs(sheet);
}

static void print_sheets(const char *folder)
{
    struct sheet sheets[4] = {{"f", {0}, 0}, {"g", {0}, 0}, {"i", {0}, 0}, {"n", {0}, 0}}, j = {"j", {0}, 0};
    for (size_t i = 0; i < 4; i++) {
        read_sheet(folder, &sheets[i]);
        print_sheet(&sheets[i]);
    }
    read_sheet(folder, &j);
    print_deadlines(&j);
}

/* Of the numbers that there are. */
static void print_refusals(void)
{
    const char *none = burrbeech_refusal_words(99);
    for (uint32_t refusal = BURRBEECH_REFUSAL_LENGTH; refusal <= BURRBEECH_REFUSAL_DEADLINES; refusal++) {
        if (strcmp(burrbeech_refusal_words(refusal), none) != 0) {
            printf("%u %s\n", (unsigned)refusal, burrbeech_refusal_words(refusal));
        }
    }
}

int main(int argc, char **argv)
{
    if (argc != 2) {
        fprintf(stderr, "program SHEETS | --version | --refusals\n");
        return 3;
    }
    if (strcmp(argv[1], "--version") == 0) {
        printf("%d.%d.%d %s\n", BURRBEECH_VERSION_MAJOR, BURRBEECH_VERSION_MINOR, BURRBEECH_VERSION_PATCH,
               BURRBEECH_VERSION);
    } else if (strcmp(argv[1], "--refusals") == 0) {
        print_refusals();
    } else {
        print_sheets(argv[1]);
    }
    return fflush(stdout) == 0 ? 0 : 3;
}
