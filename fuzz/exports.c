/* The exports under libFuzzer, on memory as lent.h lends it. An input is a session (row count, sheet, events), as those of corpus/
 * are; an event whose first byte is 128 or more changes lent memory instead: a word of it, its length, or the role that is looked
 * in. Or it is a price list and an order (receipts.c, which also prices the values that a session shows). An input that is neither
 * is cut into memories as it is.
 *
 * Each call is asked: does it answer a number of its list; does a refusal change nothing and answer 0 beside its number; is what
 * start and handle leave a rest; are entries whole, and none where the flow fails; does a last row that failed as a whole show a
 * flow that fails, without a value; are strides within their bound; does a row of kind 50 begin with all its touches, and lose one
 * at most by an event. */
#include "lent.h"

/* Bytes of a row and of a row of a state, and of a row count with its byte 10. */
enum { ROW = WORD * NANNYJIFFY_ROW_WORDS, STATE_ROW = WORD * NANNYJIFFY_STATE_WORDS, COUNT = 5 };

static struct memory sheet = {.unit = 1}, rows = {.unit = WORD}, state = {.unit = WORD}, value = {.unit = WORD},
                     list = {.unit = 1}, event = {.unit = 1};

/* The role that is looked in: the last event's, as the session program has it, or what a change says. */
static uint32_t role = 1;

/* The numbers of each call. */
static const uint32_t of_load[] = {0, 1, 2, 3, 4, 5, 6, 7, 21, END}, of_start[] = {0, 20, 21, END},
                      of_look[] = {0, 8, 20, 21, 22, 23, 24, END}, of_handle[] = {0, 8, 9, 20, 21, 22, 23, 30, 31, END};

/* Rows of kind 43 and 47, and 1. */
static uint32_t most_strides(void) {
    uint32_t most = 1;
    for (size_t at = 0; at + NANNYJIFFY_ROW_WORDS <= rows.count; at += NANNYJIFFY_ROW_WORDS) {
        int32_t kind = word(rows.own, at);
        most += kind == 43 || kind == 47;
    }
    return most;
}

/* Whether the rows of kind 50 have the touches left that they may have after an accepted call, start or handle. */
static int touches_fine(const uint8_t *before, const uint8_t *after, int starts) {
    for (size_t row = 0; row * NANNYJIFFY_ROW_WORDS < rows.count; row++) {
        size_t at = row * NANNYJIFFY_STATE_WORDS;
        if (word(rows.own, row * NANNYJIFFY_ROW_WORDS) != 50 || word(after, at) != 1) continue;
        int32_t all = word(rows.own, row * NANNYJIFFY_ROW_WORDS + 3), left = word(after, at + 2);
        int32_t most = starts || word(before, at) != 1 ? all : word(before, at + 2);
        if (left != most && (starts || word(before, at) != 1 || left != most - 1)) return 0;
    }
    return 1;
}

static uint32_t load(void) {
    const uint8_t *text = lend(&sheet);
    uint32_t number = nannyjiffy_load(text, sheet.count, lend(&rows), rows.count);
    ask(listed(number, of_load), "load answers a number that is not its own");
    ask(kept(&sheet, 0), "load changed the sheet");
    ask(kept(&rows, 0) || number == 0, "a refused load changed the rows");
    shown(1, number, 0);
    if (number == 0) take(&rows);
    return number;
}

/* Whether the last row is tagged as failed as a whole. */
static int failed_whole(void) {
    int32_t tag = 0;
    if (bytes(&state) >= STATE_ROW) memcpy(&tag, state.own + bytes(&state) - STATE_ROW, WORD);
    return tag == 4;
}

static uint32_t look(void) {
    uint32_t valued = 7, fails = 7;
    size_t written = 7;
    const int32_t *lent_rows = lend(&rows), *lent_state = lend(&state);
    int32_t *lent_value = lend(&value);
    uint32_t number = nannyjiffy_look(lent_rows, rows.count, lent_state, state.count, role, lent_value, value.count,
                                      lend(&list), list.count, &valued, &fails, &written);
    ask(listed(number, of_look), "look answers a number that is not its own");
    ask(number != 0 || (role >= 1 && role <= NANNYJIFFY_MAX_ROLE), "a look in no role is accepted");
    ask(kept(&rows, 0) && kept(&state, 0), "look changed what it reads");
    ask(valued <= 1 && fails <= 1 && written <= list.count && written % NANNYJIFFY_ENTRY_BYTES == 0, "flags or entries");
    ask(kept(&list, written), "look changed the list after its part");
    ask(number == 0 || (!valued && !fails && !written && kept(&value, 0)), "a refused look left something");
    ask(!fails || written == 0, "entries where the flow fails");
    ask(number != 0 || !failed_whole() || (fails && !valued), "a last row that failed as a whole is no fail");
    for (int leaf = 0; number == 0 && !valued && leaf < NANNYJIFFY_VALUE_WORDS; leaf++)
        ask(lent_value[leaf] == 0, "leaves without a value");
    kept(&value, 0); /* for its guard bytes */
    if (number == 0 && valued) order_value(lent_value);
    shown(2, number, (uint32_t)written * 4 + valued * 2 + fails);
    shown(7, number, written ? role % 16 : 16);
    return number;
}

/* What start or handle left is a rest, and strides are within their bound. */
static void moved(const uint32_t *numbers, uint32_t number, uint32_t strides, uint32_t call) {
    ask(listed(number, numbers), "a number that is not the call's own");
    ask(kept(&rows, 0), "the rows changed");
    ask(kept(&state, 0) || number == 0, "a refused call changed the state");
    ask(number == 0 ? strides >= 1 && strides <= most_strides() : strides == 0, "strides");
    shown(call, number, strides);
    if (number != 0) return;
    ask(touches_fine(state.own, state.room + ROOM - bytes(&state), call == 3), "touches left");
    take(&state);
    size_t before = value.count;
    uint32_t role_before = role;
    resize(&value, NANNYJIFFY_VALUE_WORDS);
    if (role < 1 || role > NANNYJIFFY_MAX_ROLE) role = 1;
    number = look();
    resize(&value, before);
    role = role_before;
    ask(number == 0 || number == 24, "what a call left is no rest");
    for (size_t row = 0; row * ROW < bytes(&rows); row++) shown(5, rows.own[ROW * row], state.own[STATE_ROW * row]);
}

static uint32_t start(void) {
    uint32_t strides = 7777;
    const int32_t *lent = lend(&rows);
    uint32_t number = nannyjiffy_start(lent, rows.count, lend(&state), state.count, &strides);
    moved(of_start, number, strides, 3);
    return number;
}

static void handle(void) {
    uint32_t strides = 7777;
    const int32_t *lent_rows = lend(&rows);
    const uint8_t *lent_event = lend(&event);
    uint32_t number = nannyjiffy_handle(lent_rows, rows.count, lend(&state), state.count, lent_event, event.count, &strides);
    ask(kept(&event, 0), "handle changed the event");
    int whole = event.count == NANNYJIFFY_EVENT_BYTES && event.own[0] == ' ';
    role = whole && event.own[1] >= '1' && event.own[1] <= '8' ? event.own[1] - '0' : 1;
    moved(of_handle, number, strides, 4);
}

/* Changes a word, a length or the role, by the bytes of an event that is none: which memory (1), where (2 and 3), how (4) and what
 * (5 to 8). */
static void poke(const uint8_t *from, size_t size) {
    struct memory *memories[] = {&rows, &state, &state, &value, &list, &event};
    if (size < 9) return;
    struct memory *m = memories[from[1] % 7 % 6];
    size_t place = (size_t)from[2] + 256u * from[3];
    int32_t small = from[5] % 8;
    if (from[1] % 7 == 6) {
        role = from[4] % 8 == 6 ? (uint32_t)word(from + 5, 0) : from[5] % 16;
    } else if (from[4] % 8 == 7) {
        resize(m, from[5] % 2 ? m->count + small - 4 : place);
    } else if (m->count > 0) {
        memcpy(m->own + place % m->count * m->unit, from[4] % 8 == 6 ? from + 5 : (const uint8_t *)&small, m->unit);
    }
    shown(6, look(), from[1] % 7);
    if (from[4] >= 128) start();
}

/* Memories as the bytes come: a ninth each of sheet, rows and value, the list and the event, and the rest the state. */
static void raw(const uint8_t *data, size_t size) {
    size_t part = size / 9;
    fill(&sheet, data, size);
    load();
    fill(&rows, data, part);
    fill(&value, data + part, size % 2 ? part : 0);
    if (size % 2 == 0) resize(&value, NANNYJIFFY_VALUE_WORDS);
    fill(&list, data + part, part);
    fill(&event, data + 2 * part, part);
    fill(&state, data + 3 * part, size - 3 * part);
    start();
    look();
    handle();
    price_bytes(data, size, part);
}

int LLVMFuzzerTestOneInput(const uint8_t *data, size_t size) {
    struct memory *memories[] = {&sheet, &rows, &state, &value, &list, &event};
    for (int at = 0; at < 6; at++) resize(memories[at], 0);
    role = 1;
    begin_order();
    if (price_framed(data, size)) return 0;
    char field[COUNT + 1] = {0};
    memcpy(field, data, size < COUNT ? size : COUNT);
    size_t count = (size_t)strtoul(field, NULL, 10), sheet_end = COUNT + NANNYJIFFY_LINE_BYTES * count;
    if (count == 0 || count > 300 || size < sheet_end) {
        raw(data, size);
        return 0;
    }
    fill(&sheet, data + COUNT, sheet_end - COUNT);
    resize(&rows, NANNYJIFFY_ROW_WORDS * count);
    resize(&value, NANNYJIFFY_VALUE_WORDS);
    resize(&list, NANNYJIFFY_LIST_BYTES(count));
    if (load() != 0) return 0;
    resize(&state, NANNYJIFFY_STATE_WORDS * count);
    start();
    for (size_t at = sheet_end; at < size; at += NANNYJIFFY_EVENT_BYTES) {
        size_t rest = size - at < NANNYJIFFY_EVENT_BYTES ? size - at : NANNYJIFFY_EVENT_BYTES;
        if (data[at] >= 128) {
            poke(data + at, rest);
        } else {
            fill(&event, data + at, rest);
            handle();
            look();
        }
    }
    price_shown();
    return 0;
}
