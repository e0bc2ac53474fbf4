/* A workbench in C: analyses the sheet in a file and prints the verdict and the response times.
 * Status: 0 the set holds, 1 it misses, 2 the sheet is refused, 3 nothing could be read or printed. */
#include <burrbeech.h>

#include <stdio.h>

/* One byte more than a sheet can have is read, so that a longer file is refused too. */
#define ENOUGH (BURRBEECH_SHEET_MAX + 1)

static bool read_sheet(const char *path, uint8_t sheet[ENOUGH], size_t *len)
{
    FILE *file = fopen(path, "rb");
    if (file == NULL) {
        perror(path);
        return false;
    }
    *len = fread(sheet, 1, ENOUGH, file);
    bool good = !ferror(file);
    if (!good) {
        perror(path);
    }
    fclose(file);
    return good;
}

static void print_refusal(uint64_t answer)
{
    uint32_t refusal = burrbeech_refusal(answer);
    printf("refused %u: %s", (unsigned)refusal, burrbeech_refusal_words(refusal));
    if (burrbeech_refusal_names_task(refusal)) {
        printf(", task %zu", burrbeech_refusal_task(answer));
    }
    if (burrbeech_refusal_length(answer) != 0) {
        printf(": %zu frames from frame %zu on make more than from its largest, frame %zu", burrbeech_refusal_length(answer),
               burrbeech_refusal_other_frame(answer), burrbeech_refusal_frame(answer));
    }
    printf("\n");
}

static void print_verdict(uint64_t answer)
{
    if (burrbeech_analysed_holds(answer)) {
        printf("holds\n");
        return;
    }
    printf("missed by task %zu, ", burrbeech_analysed_missed_task(answer));
    size_t blocker = burrbeech_analysed_missed_blocker(answer);
    if (blocker == BURRBEECH_NO_BLOCKER) {
        printf("no blocker\n");
    } else {
        printf("blocker %zu\n", blocker);
    }
}

/* The times in use stand before the first 0; a task that does not pass has none. */
static void print_times(const uint32_t *times, size_t task)
{
    printf("task %zu:", task);
    if (burrbeech_analysed_time(times, task, 0) == 0) {
        printf(" missed");
    }
    for (size_t frame = 0; burrbeech_analysed_time(times, task, frame) != 0; frame++) {
        printf(" %u", (unsigned)burrbeech_analysed_time(times, task, frame));
    }
    printf("\n");
}

static int analyse(const uint8_t *sheet, size_t len)
{
    uint32_t times[BURRBEECH_TIMES_MAX];
    uint64_t answer = burrbeech_analyse_sheet(sheet, len, times, BURRBEECH_TIMES_MAX);
    if (burrbeech_refusal(answer) != 0) {
        print_refusal(answer);
        return 2;
    }
    print_verdict(answer);
    for (size_t task = 0; task < burrbeech_analysed_tasks(answer); task++) {
        print_times(times, task);
    }
    return burrbeech_analysed_holds(answer) ? 0 : 1;
}

int main(int argc, char **argv)
{
    uint8_t sheet[ENOUGH];
    size_t len;
    if (argc != 2) {
        fprintf(stderr, "workbench SHEET   analyses the sheet in a file\n");
        return 3;
    }
    if (!read_sheet(argv[1], sheet, &len)) {
        return 3;
    }
    int status = analyse(sheet, len);
    if (fflush(stdout) != 0 || ferror(stdout)) {
        perror("standard output");
        return 3;
    }
    return status;
}
