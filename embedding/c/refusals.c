/* Each export from C with memory that is wrong in one way: the number that it answers, its single answers, and that lent memory, and
 * what stands beside it, keeps its content; lengths as they were with four leaves and without a role; a value of eight leaves;
 * blanks, where they are read as 0 and where not; a look at a quiet flow, which needs no list memory; roles, touches that are
 * spent, and looks in each role; a start that leaves the range, which is accepted and fails as a whole; and receipts. Prints
 * nothing where all is as nannyjiffy.h says. */
#include "nannyjiffy.h"

#include <stdio.h>
#include <stdlib.h>
#include <string.h>

enum { ROWS = 2, BEYOND_ROWS = 4, WIDE_ROWS = 5, GATED_ROWS = 3 };

static const char sheet[] = "   0   3           0           0           0\n"
                            "   1  41           0           0           0\n";
/* A shown 5: a value, no entry, and it does not fail. */
static const char quiet[] = "   0  22           5           0           0\n"
                            "   1  49           0           0           0\n";
/* 2147483647 + 1 in a filled editor, and the same with + 0. */
static const char beyond[] = "   0  22  2147483647           0           0\n"
                             "   1  22           1           0           0\n"
                             "   2  24           1           0           1\n"
                             "   3  40           2           0           0\n";
static const int32_t within[BEYOND_ROWS * NANNYJIFFY_ROW_WORDS] = {22, INT32_MAX, 0, 0, 22, 0, 0, 0, 24, 1, 0, 1, 40, 2, 0, 0};
/* An editor of 8 numbers; with row 4 a type of 9 leaves, which is too wide. */
static const char wide[] = "   0   3           0           0           0\n"
                           "   1   4           0           0           0\n"
                           "   2   4           1           1           0\n"
                           "   3   4           2           2           0\n"
                           "   4  41           3           0           0\n";
static const char too_wide[] = "   4   4           3           0           0\n"
                               "   5  41           4           0           0\n";
static const char give_wide[] = " 1               0 1           1           2           3           4"
                                "           5           6           7 -2147483648\n";
/* An empty editor that role 2 may touch once. */
static const char gated[] = "   0   3           0           0           0\n"
                            "   1  41           0           0           0\n"
                            "   2  50           2           1           1\n";

/* The last seven leaves of an event, as 0 and as blanks. */
#define ZEROS "           0           0           0           0           0           0           0"
#define BLANKS "                                                                                    "

static const char entry[] = "               0 1 3 0 0 0 0 0 0 0\n";
static const char give[] = " 1               0 1          12" ZEROS "\n";
/* The same without a role, as events once were, and with four leaves, as events, entries and values once had. */
static const char give_nobody[] = "               0 1          12" ZEROS "\n";
static const char give_four[] = "               0 1          12           0           0           0\n";
static const char entry_four[] = "               0 1 3 0 0 0\n";
enum { FOUR_WORDS = 4 };
/* The same with blanks: where nothing is meant, and where something is. */
static const char sheet_blank[] = "   0   3                                    \n"
                                  "   1  41           0                        \n";
static const char sheet_missing[] = "   0   3                                    \n"
                                    "   1  41                                    \n";
static const char give_blank[] = " 1                 1           7" BLANKS "\n";
static const char give_missing[] = " 1                 1            " ZEROS "\n";
static const char no_action[] = " 1               0            12" ZEROS "\n";
static const char no_role[] = "                 0 1          12" ZEROS "\n";
static const char left[] = " 1               0 3           0" ZEROS "\n";

_Static_assert(sizeof give == NANNYJIFFY_EVENT_BYTES + 1 && sizeof give_blank == sizeof give, "an event");
_Static_assert(sizeof give_wide == sizeof give && sizeof give_four == 67 + 1, "an event of eight leaves, and of four");
_Static_assert(sizeof no_role == sizeof give && sizeof give_nobody == 115 + 1, "an event with a blank role, and without one");
_Static_assert(sizeof entry == NANNYJIFFY_ENTRY_BYTES + 1 && sizeof entry_four == 27 + 1, "an entry, and one of four leaves");

/* Each memory has room in front and behind that no call may write. */
static struct {
    int32_t before_rows[4], rows[ROWS * NANNYJIFFY_ROW_WORDS + 1];
    int32_t before_state[4], state[ROWS * NANNYJIFFY_STATE_WORDS + 1];
    int32_t before_value[4], value[NANNYJIFFY_VALUE_WORDS + 1];
    uint8_t before_list[4], list[NANNYJIFFY_LIST_BYTES(ROWS) + 1];
} lent, kept;

enum { ROWS_WORDS = ROWS * NANNYJIFFY_ROW_WORDS, STATE_WORDS = ROWS * NANNYJIFFY_STATE_WORDS };

#define CHECK(that)                                                         \
    do {                                                                    \
        if (!(that)) {                                                      \
            fprintf(stderr, "%s:%d: not %s\n", __FILE__, __LINE__, #that);  \
            exit(EXIT_FAILURE);                                             \
        }                                                                   \
    } while (0)

static uint32_t load(const char *text, size_t bytes, size_t words)
{
    return nannyjiffy_load((const uint8_t *)text, bytes, lent.rows, words);
}

static uint32_t start(size_t rows, size_t words, uint32_t *strides)
{
    *strides = 99;
    return nannyjiffy_start(lent.rows, rows, lent.state, words, strides);
}

static uint32_t handle(size_t words, const char *event, size_t bytes, uint32_t *strides)
{
    *strides = 99;
    return nannyjiffy_handle(lent.rows, ROWS_WORDS, lent.state, words, (const uint8_t *)event, bytes, strides);
}

static struct {
    uint32_t valued, fails;
    size_t bytes;
} seen;

static uint32_t look_in(uint32_t role, size_t words, size_t value, size_t list)
{
    seen.valued = seen.fails = 99, seen.bytes = 99;
    return nannyjiffy_look(lent.rows, ROWS_WORDS, lent.state, words, role, lent.value, value, lent.list, list, &seen.valued,
                           &seen.fails, &seen.bytes);
}

static uint32_t look(size_t words, size_t value, size_t list) { return look_in(1, words, value, list); }

/* A refused look. */
static void check_look(uint32_t number, uint32_t expected)
{
    CHECK(number == expected);
    CHECK(seen.valued == 0 && seen.fails == 0 && seen.bytes == 0);
    CHECK(memcmp(&lent, &kept, sizeof lent) == 0);
}

/* A failed start: the state is the tag 4 in the last row, and so it stays. */
static void check_failed_start(void)
{
    int32_t rows[BEYOND_ROWS * NANNYJIFFY_ROW_WORDS], state[BEYOND_ROWS * NANNYJIFFY_STATE_WORDS];
    int32_t failed[BEYOND_ROWS * NANNYJIFFY_STATE_WORDS] = {0}, value[NANNYJIFFY_VALUE_WORDS];
    const size_t rows_words = BEYOND_ROWS * NANNYJIFFY_ROW_WORDS, state_words = BEYOND_ROWS * NANNYJIFFY_STATE_WORDS;
    const int32_t no_value[NANNYJIFFY_VALUE_WORDS] = {0};
    uint32_t strides = 99, valued = 99, fails = 99;
    size_t bytes = 99;
    uint8_t list[1] = {7};

    memset(state, 0x77, sizeof state);
    memset(value, 0x77, sizeof value);
    failed[(BEYOND_ROWS - 1) * NANNYJIFFY_STATE_WORDS] = 4;
    CHECK(nannyjiffy_load((const uint8_t *)beyond, sizeof beyond - 1, rows, rows_words) == NANNYJIFFY_ACCEPTED);
    CHECK(nannyjiffy_start(rows, rows_words, state, state_words, &strides) == NANNYJIFFY_ACCEPTED && strides == 1);
    CHECK(memcmp(state, failed, sizeof state) == 0);
    CHECK(nannyjiffy_look(rows, rows_words, state, state_words, 1, value, NANNYJIFFY_VALUE_WORDS, list, 0, &valued, &fails,
                          &bytes) == NANNYJIFFY_ACCEPTED);
    CHECK(valued == 0 && fails == 1 && bytes == 0 && list[0] == 7 && memcmp(value, no_value, sizeof value) == 0);
    CHECK(nannyjiffy_handle(rows, rows_words, state, state_words, (const uint8_t *)give, NANNYJIFFY_EVENT_BYTES,
                            &strides) == NANNYJIFFY_HANDLING && strides == 0);
    CHECK(nannyjiffy_handle(rows, rows_words, state, state_words, (const uint8_t *)no_action, NANNYJIFFY_EVENT_BYTES,
                            &strides) == NANNYJIFFY_EVENT && strides == 0);
    CHECK(memcmp(state, failed, sizeof state) == 0);
    /* The same words are no state of a flow that starts well, nor with a word changed. */
    CHECK(nannyjiffy_handle(within, rows_words, state, state_words, (const uint8_t *)give, NANNYJIFFY_EVENT_BYTES,
                            &strides) == NANNYJIFFY_NO_STATE && strides == 0);
    state[(BEYOND_ROWS - 1) * NANNYJIFFY_STATE_WORDS + 1] = 3;
    CHECK(nannyjiffy_handle(rows, rows_words, state, state_words, (const uint8_t *)give, NANNYJIFFY_EVENT_BYTES,
                            &strides) == NANNYJIFFY_NO_STATE && strides == 0);
}

/* An editor of eight leaves: all of them stand in the state and in the value; a type of nine is refused. */
static void check_eight_leaves(void)
{
    const size_t rows_words = WIDE_ROWS * NANNYJIFFY_ROW_WORDS, state_words = WIDE_ROWS * NANNYJIFFY_STATE_WORDS;
    static const int32_t leaves[NANNYJIFFY_VALUE_WORDS] = {1, 2, 3, 4, 5, 6, 7, INT32_MIN};
    int32_t rows[(WIDE_ROWS + 1) * NANNYJIFFY_ROW_WORDS], state[WIDE_ROWS * NANNYJIFFY_STATE_WORDS];
    int32_t value[NANNYJIFFY_VALUE_WORDS];
    const int32_t *last = &state[(WIDE_ROWS - 1) * NANNYJIFFY_STATE_WORDS];
    uint32_t strides = 99, valued = 99, fails = 99;
    size_t bytes = 99;
    uint8_t list[NANNYJIFFY_ENTRY_BYTES];
    char text[(WIDE_ROWS + 1) * NANNYJIFFY_LINE_BYTES];

    memcpy(text, wide, sizeof text - 2 * NANNYJIFFY_LINE_BYTES);
    memcpy(text + sizeof text - 2 * NANNYJIFFY_LINE_BYTES, too_wide, 2 * NANNYJIFFY_LINE_BYTES);
    CHECK(nannyjiffy_load((const uint8_t *)text, sizeof text, rows, rows_words + NANNYJIFFY_ROW_WORDS) == NANNYJIFFY_LIMIT);
    CHECK(nannyjiffy_load((const uint8_t *)wide, sizeof wide - 1, rows, rows_words) == NANNYJIFFY_ACCEPTED);
    CHECK(nannyjiffy_start(rows, rows_words, state, state_words, &strides) == NANNYJIFFY_ACCEPTED && strides == 1);
    CHECK(nannyjiffy_handle(rows, rows_words, state, state_words, (const uint8_t *)give_wide, sizeof give_wide - 1,
                            &strides) == NANNYJIFFY_ACCEPTED && strides == 1);
    CHECK(last[0] == 2 && memcmp(&last[2], leaves, sizeof leaves) == 0);
    CHECK(nannyjiffy_look(rows, rows_words, state, state_words, NANNYJIFFY_MAX_ROLE, value, NANNYJIFFY_VALUE_WORDS, list,
                          sizeof list, &valued, &fails, &bytes) == NANNYJIFFY_ACCEPTED);
    CHECK(valued == 1 && fails == 0 && bytes == NANNYJIFFY_ENTRY_BYTES && memcmp(value, leaves, sizeof value) == 0);
    CHECK(memcmp(list, "               0 1 3 3 3 3 3 3 3 3\n", sizeof list) == 0);
}

/* The number that an event of a role gets. */
static uint32_t touch(const int32_t *rows, int32_t *state, char role)
{
    char event[sizeof give];
    uint32_t strides = 99, number;
    memcpy(event, give, sizeof event);
    event[1] = role;
    number = nannyjiffy_handle(rows, GATED_ROWS * NANNYJIFFY_ROW_WORDS, state, GATED_ROWS * NANNYJIFFY_STATE_WORDS,
                               (const uint8_t *)event, NANNYJIFFY_EVENT_BYTES, &strides);
    CHECK(strides == (number == NANNYJIFFY_ACCEPTED));
    return number;
}

/* One touch of role 2: 30 for others, 31 once it is used; each role's list; touches left that are no state. */
static void check_roles(void)
{
    const size_t rows_words = GATED_ROWS * NANNYJIFFY_ROW_WORDS, state_words = GATED_ROWS * NANNYJIFFY_STATE_WORDS;
    int32_t rows[GATED_ROWS * NANNYJIFFY_ROW_WORDS], state[GATED_ROWS * NANNYJIFFY_STATE_WORDS];
    int32_t before[GATED_ROWS * NANNYJIFFY_STATE_WORDS], value[NANNYJIFFY_VALUE_WORDS];
    int32_t *gate = &state[2 * NANNYJIFFY_STATE_WORDS];
    uint8_t list[NANNYJIFFY_ENTRY_BYTES];
    uint32_t strides = 99, valued, fails;
    size_t bytes;

    CHECK(nannyjiffy_load((const uint8_t *)gated, sizeof gated - 1, rows, rows_words) == NANNYJIFFY_ACCEPTED);
    CHECK(nannyjiffy_start(rows, rows_words, state, state_words, &strides) == NANNYJIFFY_ACCEPTED && strides == 1);
    CHECK(gate[0] == 1 && gate[1] == 3 && gate[2] == 1);
    for (uint32_t role = 1; role <= NANNYJIFFY_MAX_ROLE; role++) {
        CHECK(nannyjiffy_look(rows, rows_words, state, state_words, role, value, NANNYJIFFY_VALUE_WORDS, list, sizeof list,
                              &valued, &fails, &bytes) == NANNYJIFFY_ACCEPTED);
        CHECK(valued == 0 && fails == 0 && bytes == (role == 2 ? sizeof list : 0));
    }
    memcpy(before, state, sizeof state);
    CHECK(touch(rows, state, '1') == NANNYJIFFY_ROLE && touch(rows, state, '9') == NANNYJIFFY_EVENT);
    CHECK(memcmp(state, before, sizeof state) == 0);
    CHECK(touch(rows, state, '2') == NANNYJIFFY_ACCEPTED && gate[2] == 0);
    memcpy(before, state, sizeof state);
    CHECK(touch(rows, state, '2') == NANNYJIFFY_TOUCHES && touch(rows, state, '8') == NANNYJIFFY_ROLE);
    CHECK(memcmp(state, before, sizeof state) == 0);
    CHECK(nannyjiffy_look(rows, rows_words, state, state_words, 2, value, NANNYJIFFY_VALUE_WORDS, list, 0, &valued, &fails,
                          &bytes) == NANNYJIFFY_ACCEPTED);
    CHECK(valued == 1 && fails == 0 && bytes == 0 && value[0] == 12);
    for (int32_t left = -1; left <= 2; left += 3) {
        gate[2] = left;
        CHECK(touch(rows, state, '2') == NANNYJIFFY_NO_STATE);
    }
    rows[2 * NANNYJIFFY_ROW_WORDS + 3] = NANNYJIFFY_MAX_TOUCHES + 1;
    CHECK(touch(rows, state, '2') == NANNYJIFFY_ROWS);
}

/* Two prices; a value of each, and one of a code without a price; lines and values that are none. None of it may be written. */
static const char prices[] = "        1015        2949\n"
                             "          -7           1\n";
static const int32_t order[][NANNYJIFFY_VALUE_WORDS] = {{1015, 1}, {-7, 1}, {2030, 0}};
static const char *const no_line[6] = {"           7            \n", "                       1\n", "           7          01\n",
                                       "           7          -1\n", "           7    10000000\n", "           7           1 "};
static const int32_t no_value[4][NANNYJIFFY_VALUE_WORDS] = {{-7, 10000}, {-7, -1}, {-7, 1, 1}, {-7, 1, 0, 0, 0, 0, 0, -1}};
static uint64_t cents[3]; /* the total is in the middle */

static uint32_t receipt(const char *text, size_t bytes, const int32_t *words, size_t count)
{
    cents[0] = cents[1] = cents[2] = 99;
    const uint32_t number = nannyjiffy_receipt((const uint8_t *)text, bytes, words, count, &cents[1]);
    CHECK(cents[0] == 99 && cents[2] == 99 && (number == NANNYJIFFY_ACCEPTED || cents[1] == 0));
    return number;
}

/* Receipts: of nothing, rounded once, of the most, and each ground, in the order in which they are asked. */
static void check_receipts(void)
{
    enum { LINE = NANNYJIFFY_PRICE_LINE_BYTES, VALUE = NANNYJIFFY_VALUE_WORDS };
    enum { LINES = NANNYJIFFY_MAX_PRICE_LINES + 1, VALUES = NANNYJIFFY_MAX_VALUES + 1 };
    static char lines[LINES * LINE + 1];
    static int32_t values[VALUES * VALUE];

    CHECK(receipt(prices, 0, *order, 0) == NANNYJIFFY_ACCEPTED && cents[1] == 0);
    CHECK(receipt(prices, 2 * LINE, *order, 2 * VALUE) == NANNYJIFFY_ACCEPTED && cents[1] == 30);
    CHECK(receipt(prices, 2 * LINE, *order, 3 * VALUE) == NANNYJIFFY_NO_PRICE);
    CHECK(receipt(prices, 0, order[2], VALUE) == NANNYJIFFY_NO_PRICE);
    CHECK(receipt(prices, 0, *order, VALUE - 1) == NANNYJIFFY_ORDER && receipt(prices, 0, *order, VALUE + 1) == NANNYJIFFY_ORDER);
    for (int at = 0; at < 4; at++) CHECK(receipt(prices, LINE, no_value[at], VALUE) == NANNYJIFFY_ORDER);
    for (int at = 0; at < 6; at++) CHECK(receipt(no_line[at], LINE, no_value[0], VALUE) == NANNYJIFFY_PRICES);
    CHECK(receipt(prices, LINE - 1, *order, 0) == NANNYJIFFY_PRICES && receipt(prices, LINE + 1, *order, 0) == NANNYJIFFY_PRICES);
    for (int at = 0; at < LINES; at++) snprintf(lines + at * LINE, LINE + 1, "%12d%12d\n", at, NANNYJIFFY_MAX_PRICE);
    for (int at = 0; at < VALUES; at++) values[at * VALUE] = at, values[at * VALUE + 1] = NANNYJIFFY_MAX_COPIES;
    CHECK(receipt(lines, (LINES - 1) * LINE, values, (VALUES - 1) * VALUE) == NANNYJIFFY_ACCEPTED);
    CHECK(cents[1] == UINT64_C(63993593601));
    CHECK(receipt(lines, (LINES - 1) * LINE, values, VALUES * VALUE) == NANNYJIFFY_ORDER);
    CHECK(receipt(lines, LINES * LINE, values, 0) == NANNYJIFFY_PRICES);
    memcpy(lines + LINE, lines, LINE);
    CHECK(receipt(lines, 2 * LINE, values, 0) == NANNYJIFFY_PRICES);
}

int main(void)
{
    uint32_t strides;
    check_failed_start();
    check_eight_leaves();
    check_roles();
    check_receipts();
    memset(&lent, 0x77, sizeof lent);
    kept = lent;

    CHECK(load(sheet, 0, 0) == NANNYJIFFY_LENGTH);
    CHECK(load(sheet, sizeof sheet - 2, ROWS_WORDS) == NANNYJIFFY_LENGTH);
    CHECK(load(sheet, sizeof sheet - 1, ROWS_WORDS + 1) == NANNYJIFFY_MEMORY);
    CHECK(load(sheet, NANNYJIFFY_LINE_BYTES, NANNYJIFFY_ROW_WORDS) == NANNYJIFFY_NAMING);
    CHECK(load(sheet_missing, sizeof sheet_missing - 1, ROWS_WORDS) == NANNYJIFFY_UNREADABLE);
    CHECK(start(ROWS_WORDS, STATE_WORDS, &strides) == NANNYJIFFY_ROWS && strides == 0);
    CHECK(memcmp(&lent, &kept, sizeof lent) == 0);

    CHECK(load(sheet_blank, sizeof sheet_blank - 1, ROWS_WORDS) == NANNYJIFFY_ACCEPTED);
    memcpy(kept.rows, (const int32_t[]){3, 0, 0, 0, 41, 0, 0, 0}, ROWS_WORDS * sizeof(int32_t));
    CHECK(memcmp(&lent, &kept, sizeof lent) == 0);
    CHECK(load(sheet, sizeof sheet - 1, ROWS_WORDS) == NANNYJIFFY_ACCEPTED);
    CHECK(memcmp(&lent, &kept, sizeof lent) == 0);
    CHECK(start(0, 0, &strides) == NANNYJIFFY_ROWS && strides == 0);
    CHECK(start(ROWS_WORDS, STATE_WORDS + 1, &strides) == NANNYJIFFY_MEMORY && strides == 0);
    check_look(look(STATE_WORDS, NANNYJIFFY_VALUE_WORDS, 0), NANNYJIFFY_NO_STATE);

    CHECK(start(ROWS_WORDS, STATE_WORDS, &strides) == NANNYJIFFY_ACCEPTED && strides == 1);
    memset(kept.state, 0, STATE_WORDS * sizeof(int32_t));
    kept.state[NANNYJIFFY_STATE_WORDS] = 1;
    CHECK(memcmp(&lent, &kept, sizeof lent) == 0);
    check_look(look(STATE_WORDS - 1, NANNYJIFFY_VALUE_WORDS, sizeof entry), NANNYJIFFY_MEMORY);
    check_look(look(STATE_WORDS, NANNYJIFFY_VALUE_WORDS + 1, sizeof entry), NANNYJIFFY_MEMORY);
    check_look(look(STATE_WORDS, FOUR_WORDS, sizeof entry), NANNYJIFFY_MEMORY);
    check_look(look(STATE_WORDS, NANNYJIFFY_VALUE_WORDS, NANNYJIFFY_ENTRY_BYTES - 1), NANNYJIFFY_LIST);
    check_look(look(STATE_WORDS, NANNYJIFFY_VALUE_WORDS, sizeof entry_four - 1), NANNYJIFFY_LIST);
    /* A role that there is not is asked after 21 to 23 and before 24. */
    check_look(look_in(0, STATE_WORDS, NANNYJIFFY_VALUE_WORDS, 0), NANNYJIFFY_EVENT);
    check_look(look_in(NANNYJIFFY_MAX_ROLE + 1, STATE_WORDS, NANNYJIFFY_VALUE_WORDS, sizeof entry), NANNYJIFFY_EVENT);
    check_look(look_in(0x101, STATE_WORDS, NANNYJIFFY_VALUE_WORDS, sizeof entry), NANNYJIFFY_EVENT);
    check_look(look_in(UINT32_MAX, STATE_WORDS - 1, NANNYJIFFY_VALUE_WORDS, 0), NANNYJIFFY_MEMORY);
    CHECK(handle(STATE_WORDS - 1, give, NANNYJIFFY_EVENT_BYTES, &strides) == NANNYJIFFY_MEMORY && strides == 0);
    CHECK(handle(STATE_WORDS, give, NANNYJIFFY_EVENT_BYTES - 1, &strides) == NANNYJIFFY_EVENT && strides == 0);
    CHECK(handle(STATE_WORDS, give_four, sizeof give_four - 1, &strides) == NANNYJIFFY_EVENT && strides == 0);
    CHECK(handle(STATE_WORDS, give_nobody, sizeof give_nobody - 1, &strides) == NANNYJIFFY_EVENT && strides == 0);
    CHECK(handle(STATE_WORDS, no_action, NANNYJIFFY_EVENT_BYTES, &strides) == NANNYJIFFY_EVENT && strides == 0);
    CHECK(handle(STATE_WORDS, no_role, NANNYJIFFY_EVENT_BYTES, &strides) == NANNYJIFFY_EVENT && strides == 0);
    CHECK(handle(STATE_WORDS, left, NANNYJIFFY_EVENT_BYTES, &strides) == NANNYJIFFY_HANDLING && strides == 0);
    CHECK(handle(STATE_WORDS, give_missing, NANNYJIFFY_EVENT_BYTES, &strides) == NANNYJIFFY_HANDLING && strides == 0);
    CHECK(memcmp(&lent, &kept, sizeof lent) == 0);

    CHECK(handle(STATE_WORDS, give_blank, NANNYJIFFY_EVENT_BYTES, &strides) == NANNYJIFFY_ACCEPTED && strides == 1);
    memcpy(&kept.state[NANNYJIFFY_STATE_WORDS], (const int32_t[]){2, 3, 7}, 3 * sizeof(int32_t));
    CHECK(memcmp(&lent, &kept, sizeof lent) == 0);
    CHECK(handle(STATE_WORDS, give, NANNYJIFFY_EVENT_BYTES, &strides) == NANNYJIFFY_ACCEPTED && strides == 1);
    memcpy(&kept.state[NANNYJIFFY_STATE_WORDS], (const int32_t[]){2, 3, 12}, 3 * sizeof(int32_t));
    CHECK(memcmp(&lent, &kept, sizeof lent) == 0);
    CHECK(look(STATE_WORDS, NANNYJIFFY_VALUE_WORDS, sizeof lent.list - 1) == NANNYJIFFY_ACCEPTED);
    CHECK(seen.valued == 1 && seen.fails == 0 && seen.bytes == NANNYJIFFY_ENTRY_BYTES);
    memcpy(kept.value, (const int32_t[NANNYJIFFY_VALUE_WORDS]){12}, NANNYJIFFY_VALUE_WORDS * sizeof(int32_t));
    memcpy(kept.list, entry, NANNYJIFFY_ENTRY_BYTES);
    CHECK(memcmp(&lent, &kept, sizeof lent) == 0);

    CHECK(load(quiet, sizeof quiet - 1, ROWS_WORDS) == NANNYJIFFY_ACCEPTED);
    CHECK(start(ROWS_WORDS, STATE_WORDS, &strides) == NANNYJIFFY_ACCEPTED && strides == 1);
    memcpy(kept.rows, (const int32_t[]){22, 5, 0, 0, 49, 0, 0, 0}, ROWS_WORDS * sizeof(int32_t));
    memcpy(&kept.state[NANNYJIFFY_STATE_WORDS], (const int32_t[]){1, 3, 5}, 3 * sizeof(int32_t));
    CHECK(memcmp(&lent, &kept, sizeof lent) == 0);
    CHECK(look(STATE_WORDS, NANNYJIFFY_VALUE_WORDS, 0) == NANNYJIFFY_ACCEPTED);
    CHECK(seen.valued == 1 && seen.fails == 0 && seen.bytes == 0);
    kept.value[0] = 5;
    CHECK(memcmp(&lent, &kept, sizeof lent) == 0);
    return EXIT_SUCCESS;
}
