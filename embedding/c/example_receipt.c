/* An order from look (CR 7): runs the flow of a session file once for each print that is ordered; look writes each value into the
 * order, and the order goes as it is, with the price list of another file, to nannyjiffy_receipt. Prints a line for each value:
 * its code and copies, and the number and the cents of the order up to it. examples/receipt.md tells what comes out.
 *   example_receipt SESSION PRICES */
#include "nannyjiffy.h"

#include <inttypes.h>
#include <stdio.h>
#include <stdlib.h>

/* What is ordered: the actions that choose the format, Left (3) and Right (4), and the copies. */
static const struct {
    const char *format;
    int copies;
} prints[] = {{"3", 1}, {"43", 1}, {"3", 100}, {"44", 1}};

/* The role that touches, and looks; actions; bytes of the row count in front of the sheet. */
enum { ROLE = 1, GIVE = '1', CONTINUE = '2', COUNT = 5, PRINTS = sizeof prints / sizeof *prints };

/* Room for the longest and a byte: it ends the row count, whatever the file is, and a list that is too long is refused, not cut. */
static uint8_t session[COUNT + NANNYJIFFY_MAX_ROWS * NANNYJIFFY_LINE_BYTES + 1];
static uint8_t prices[NANNYJIFFY_MAX_PRICE_LINES * NANNYJIFFY_PRICE_LINE_BYTES + 1];
static int32_t rows[NANNYJIFFY_MAX_ROWS * NANNYJIFFY_ROW_WORDS], state[NANNYJIFFY_MAX_ROWS * NANNYJIFFY_STATE_WORDS];
static size_t rows_words, state_words;
static int32_t order[PRINTS][NANNYJIFFY_VALUE_WORDS];

/* Ends the program where something is wrong that cannot be. */
static void demand(int holds, const char *what)
{
    if (!holds) {
        fprintf(stderr, "example_receipt: %s\n", what);
        exit(EXIT_FAILURE);
    }
}

/* The bytes of a file, or the first of them. */
static size_t read_file(const char *name, uint8_t *bytes, size_t most)
{
    FILE *file = fopen(name, "rb");
    demand(file != NULL, name);
    size_t count = fread(bytes, 1, most, file);
    demand(!ferror(file), name);
    fclose(file);
    return count;
}

/* An event at the empty path, which the flow takes. Leaves that are not used are blank. */
static void touch(char action, int leaf)
{
    char event[NANNYJIFFY_EVENT_BYTES + 1];
    uint32_t strides;
    snprintf(event, sizeof event, "%2d%16d%2c%12d%84s\n", ROLE, 0, action, leaf, "");
    demand(nannyjiffy_handle(rows, rows_words, state, state_words, (const uint8_t *)event, NANNYJIFFY_EVENT_BYTES,
                             &strides) == NANNYJIFFY_ACCEPTED, event);
}

/* Runs the flow, and looks when it is done: a list without a byte is 24 where there is still something to touch. */
static void run(const char *format, int copies, int32_t *value)
{
    uint32_t strides, valued, fails;
    uint8_t no_list[1];
    size_t bytes;
    demand(nannyjiffy_start(rows, rows_words, state, state_words, &strides) == NANNYJIFFY_ACCEPTED, "no start");
    while (*format) touch(*format++, 0);
    touch(GIVE, copies);
    touch(CONTINUE, 0);
    demand(nannyjiffy_look(rows, rows_words, state, state_words, ROLE, value, NANNYJIFFY_VALUE_WORDS, no_list, 0, &valued,
                           &fails, &bytes) == NANNYJIFFY_ACCEPTED && valued, "the flow is not done");
}

int main(int count, char **names)
{
    demand(count == 3, "SESSION PRICES");
    size_t session_bytes = read_file(names[1], session, sizeof session - 1);
    size_t prices_bytes = read_file(names[2], prices, sizeof prices);
    size_t lines = strtoul((const char *)session, NULL, 10), sheet_bytes = lines * NANNYJIFFY_LINE_BYTES;
    demand(lines <= NANNYJIFFY_MAX_ROWS && COUNT + sheet_bytes <= session_bytes, "no sheet");
    rows_words = lines * NANNYJIFFY_ROW_WORDS, state_words = lines * NANNYJIFFY_STATE_WORDS;
    demand(nannyjiffy_load(session + COUNT, sheet_bytes, rows, rows_words) == NANNYJIFFY_ACCEPTED, "the sheet is refused");
    for (size_t at = 0; at < PRINTS; at++) {
        uint64_t cents;
        run(prints[at].format, prints[at].copies, order[at]);
        uint32_t number = nannyjiffy_receipt(prices, prices_bytes, order[0], (at + 1) * NANNYJIFFY_VALUE_WORDS, &cents);
        printf("%12" PRId32 "%12" PRId32 "%4" PRIu32 "%12" PRIu64 "\n", order[at][0], order[at][1], number, cents);
    }
    return EXIT_SUCCESS;
}
