/* The session of document 01 by the four calls: a number is asked for until it is at most 9, and is then multiplied by 30. Prints a
 * screen after start and after each event, as 01 prints them. */
#include "nannyjiffy.h"

#include <inttypes.h>
#include <stdio.h>
#include <stdlib.h>

/* The role that touches, and looks. */
enum { ROWS = 12, ROLE = 1 };

/* Row number, kind, A, B, C. The literal's last byte, 0, is no part of the sheet. */
static const char sheet[ROWS * NANNYJIFFY_LINE_BYTES + 1] =
    "   0   3           0           0           0\n"
    "   1  41           0           0           0\n"
    "   2  23           0           0           0\n"
    "   3  22           9           0           0\n"
    "   4  24           5           2           3\n"
    "   5  23           0           0           0\n"
    "   6  22          30           0           0\n"
    "   7  24           3           5           6\n"
    "   8  40           7           0           0\n"
    "   9  45           0           0           0\n"
    "  10  25           4           8           9\n"
    "  11  43           1          10           0\n";

/* Role, path, action, leaves: value 12, value 4, Continue. The last seven leaves are not used. */
#define UNUSED "           0           0           0           0           0           0           0"
static const char events[3][NANNYJIFFY_EVENT_BYTES + 1] = {
    " 1               0 1          12" UNUSED "\n",
    " 1               0 1           4" UNUSED "\n",
    " 1               0 2           0" UNUSED "\n",
};

static int32_t rows[ROWS * NANNYJIFFY_ROW_WORDS];
static int32_t state[ROWS * NANNYJIFFY_STATE_WORDS];
static int32_t value[NANNYJIFFY_VALUE_WORDS];
static uint8_t list[NANNYJIFFY_LIST_BYTES(ROWS)];

#define WORDS(memory) (sizeof(memory) / sizeof(*(memory)))

/* Ends the program where a call is refused that cannot be. */
static void demand(const char *call, uint32_t number)
{
    if (number != NANNYJIFFY_ACCEPTED) {
        fprintf(stderr, "%s answers %" PRIu32 "\n", call, number);
        exit(EXIT_FAILURE);
    }
}

static void print_screen(uint32_t answer, uint32_t strides)
{
    uint32_t valued, fails;
    size_t bytes;
    demand("look", nannyjiffy_look(rows, WORDS(rows), state, WORDS(state), ROLE, value, WORDS(value), list, sizeof list,
                                   &valued, &fails, &bytes));
    printf("%4" PRIu32 "%4" PRIu32 "%2" PRIu32 "%2" PRIu32, answer, strides, fails, valued);
    for (size_t leaf = 0; leaf < WORDS(value); leaf++) {
        printf("%12" PRId32, value[leaf]);
    }
    printf("%4zu\n", bytes / NANNYJIFFY_ENTRY_BYTES);
    fwrite(list, 1, bytes, stdout);
}

int main(void)
{
    uint32_t answer, strides;
    demand("load", nannyjiffy_load((const uint8_t *)sheet, sizeof sheet - 1, rows, WORDS(rows)));
    answer = nannyjiffy_start(rows, WORDS(rows), state, WORDS(state), &strides);
    demand("start", answer);
    print_screen(answer, strides);
    for (size_t at = 0; at < WORDS(events); at++) {
        answer = nannyjiffy_handle(rows, WORDS(rows), state, WORDS(state), (const uint8_t *)events[at],
                                   NANNYJIFFY_EVENT_BYTES, &strides);
        print_screen(answer, strides);
    }
    return EXIT_SUCCESS;
}
