/* What the tests of the entries share: counting, the case sheets, and lent memory whose content is known. */
#ifndef EXPECT_H
#define EXPECT_H

#include <burrbeech.h>

#include <stdio.h>
#include <stdlib.h>
#include <string.h>

/* Every byte of lent memory before a call. */
#define BEFORE 0xA5

static unsigned passed, failed;

static inline void expect(const char *what, bool good)
{
    printf("%s ... %s\n", what, good ? "ok" : "FAILED");
    *(good ? &passed : &failed) += 1;
}

/* The closing line, and the status of the program. */
static inline int finished(void)
{
    printf("%u passed, %u failed\n", passed, failed);
    return failed != 0;
}

static inline bool untouched(const void *from, size_t bytes)
{
    const unsigned char *byte = (const unsigned char *)from;
    for (size_t i = 0; i < bytes; i++) {
        if (byte[i] != BEFORE) {
            return false;
        }
    }
    return true;
}

struct sheet {
    uint8_t bytes[BURRBEECH_SHEET_MAX + 1];
    size_t len;
};

/* Case F and a task 2 with frames 2, 1, 1, 2, 1, 3, which have no start: going round, four frames from frame 5, the
 * largest, take 7 ticks, and four from frame 3 take 8. */
static const struct sheet no_start = {{0x10, 0x60, 0x00, 0x00, 0xA0, 0x00, 0x04, 0x00, 0x00, 0x01, 0x00, 0x00,
                                       0x20, 0x00, 0x14, 0x00, 0x01, 0x40, 0x00, 0x03, 0x10, 0x00, 0x05, 0x00,
                                       0x01, 0x40, 0x00, 0x14, 0x00, 0x00, 0x06, 0x00, 0x00, 0x20, 0x00, 0x01,
                                       0x00, 0x00, 0x10, 0x00, 0x02, 0x00, 0x00, 0x10, 0x00, 0x03, 0xE0, 0xDF},
                                      48};

/* A set with a deadline for each frame, in version 2: T 10 D 10 C 2; below it T 20 Q 3, frames 5 and 2 with the
 * deadlines 20 and 4. It holds with 4; 7 and 4. */
static const struct sheet joystick = {{0x20, 0x40, 0x00, 0x00, 0xA0, 0x00, 0x00, 0x10, 0x00, 0x02,
                                       0x00, 0x00, 0xA0, 0x00, 0x14, 0x00, 0x00, 0x32, 0x00, 0x00,
                                       0x50, 0x00, 0x14, 0x00, 0x00, 0x20, 0x00, 0x04, 0xCC, 0xD0},
                                      30};

/* Case F in version 2. */
static const struct sheet f_in_2 = {{0x20, 0x40, 0x00, 0x00, 0xA0, 0x00, 0x00, 0x10, 0x00, 0x02, 0x00, 0x00, 0x40,
                                     0x00, 0x14, 0x00, 0x00, 0x31, 0x00, 0x00, 0x50, 0x00, 0x14, 0xB9, 0xC8},
                                    25};

/* What an answer says of the reason of 11; every other answer says 0. */
static inline bool reason(uint64_t answer, size_t frame, size_t length, size_t other)
{
    return burrbeech_refusal_frame(answer) == frame && burrbeech_refusal_length(answer) == length &&
           burrbeech_refusal_other_frame(answer) == other;
}

/* Whether the answer is 11 of this task for this reason, and nothing more. */
static inline bool has_no_start(uint64_t answer, size_t task, size_t frame, size_t length, size_t other)
{
    return burrbeech_refusal(answer) == BURRBEECH_REFUSAL_NOT_MONOTONIC && burrbeech_refusal_task(answer) == task &&
           reason(answer, frame, length, other) && burrbeech_detail(answer) >> 32 == 0;
}

/* A case sheet from the folder of them; the program ends where it cannot be read. */
static inline struct sheet case_sheet(const char *folder, const char *name)
{
    struct sheet sheet = {{0}, 0};
    char path[4096];
    snprintf(path, sizeof path, "%s/%s.sheet", folder, name);
    FILE *file = fopen(path, "rb");
    if (file != NULL) {
        sheet.len = fread(sheet.bytes, 1, sizeof sheet.bytes, file);
        fclose(file);
    }
    if (sheet.len == 0) {
        perror(path);
        exit(2);
    }
    return sheet;
}

#endif
