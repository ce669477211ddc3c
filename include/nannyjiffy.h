/* Nannyjiffy's five calls for C: load a sheet, start its flow, look at a rest in a role, handle an event, and price an order of
 * finished values. They stand in libflow_c.a (`rt lib` in crates/flow_c), whose contracts are in crates/flow_c/src/lib.rt; document
 * 01 says what sheets, events and list entries are, CR 7 what price lists and orders are, docs/STATE.md what a state's words
 * are, and docs/NUMBERS.md what to do about each number.
 *
 * Memory. Every memory is the caller's: the library allocates nothing, keeps nothing between calls, has no globals, and so may
 * run on several threads at once. A memory is lent for one call, as a pointer and a count of its bytes or words. A call
 *   - reads and writes nothing outside what it is lent, and writes nothing that is lent as const;
 *   - takes every count and every content: what does not serve is refused by a number, never undefined;
 *   - changes no word and no byte of lent memory where it answers another number than 0;
 *   - writes its single answers (strides, valued, fails, bytes, cents) at every call, refused ones too, there with 0.
 * The caller owes what a pointer in C owes: it is not NULL (also where its count is 0), is aligned for its type, has as many
 * words or bytes as the count says, and the memories that one call writes overlap with no other memory lent to that call.
 *
 * Stack. The deeper a sheet nests, the more a call takes: 48 KB and up, at most NANNYJIFFY_STACK_BYTES on every sheet that was
 * measured, the deepest of 256 rows among them (docs/PERFORMANCE.md). A receipt takes under 3 KB. Too little ends the program, at
 * the stack's guard page.
 */
#ifndef NANNYJIFFY_H
#define NANNYJIFFY_H

#include <stddef.h>
#include <stdint.h>

#ifdef __cplusplus
extern "C" {
#endif

/* A sheet is 1 to 256 lines, each of 45 bytes; a type has at most 8 leaves. */
#define NANNYJIFFY_MAX_ROWS 256
#define NANNYJIFFY_LINE_BYTES 45
#define NANNYJIFFY_MAX_LEAVES 8

/* An event is 117 bytes: role, path, action, 8 leaves of 12 columns, byte 10; a list entry is 35: path, action, 8 leaf kinds of 2
 * columns, byte 10. */
#define NANNYJIFFY_EVENT_BYTES (2 + 16 + 2 + 12 * NANNYJIFFY_MAX_LEAVES + 1)
#define NANNYJIFFY_ENTRY_BYTES (16 + 2 + 2 * NANNYJIFFY_MAX_LEAVES + 1)

/* Words of rows memory and of a state for each row, and words of a value. */
#define NANNYJIFFY_ROW_WORDS 4
#define NANNYJIFFY_STATE_WORDS 16
#define NANNYJIFFY_VALUE_WORDS NANNYJIFFY_MAX_LEAVES

/* Roles are 1 to 8. A row of kind 50 is for one of them, and may be touched 0 to 99 times; the touches left are part of the
 * state. */
#define NANNYJIFFY_MAX_ROLE 8
#define NANNYJIFFY_MAX_TOUCHES 99

/* A price line is 25 bytes: code and hundredths of a cent per copy, 12 columns each, byte 10. A price list is 0 to 256 lines,
 * prices 0 to 9999999; an order is 0 to 64 values, copies 0 to 9999. */
#define NANNYJIFFY_PRICE_LINE_BYTES (12 + 12 + 1)
#define NANNYJIFFY_MAX_PRICE_LINES 256
#define NANNYJIFFY_MAX_PRICE 9999999
#define NANNYJIFFY_MAX_VALUES 64
#define NANNYJIFFY_MAX_COPIES 9999

/* Stack that suffices for each call, 2.5 MiB. */
#define NANNYJIFFY_STACK_BYTES 2621440

/* List memory that suffices at every rest of a flow of so many rows: it never shows more entries than it has rows. */
#define NANNYJIFFY_LIST_BYTES(rows) (NANNYJIFFY_ENTRY_BYTES * (rows))

/* What a call answers: 0, or the first ground that holds, in the order that each call names. A blank, a field of spaces alone,
 * is 0 in an operand that its kind does not use, and the empty path; it can be read as a leaf of an event, and nowhere else. */
enum nannyjiffy_number {
    NANNYJIFFY_ACCEPTED = 0,
    NANNYJIFFY_LENGTH = 1,     /* sheet length not 45 times 1 to 256 */
    NANNYJIFFY_UNREADABLE = 2, /* a field or byte 10 unreadable, or a wrong row number; a blank where an operand is used, as row
                                * number or kind, or in an operand of a kind that is none */
    NANNYJIFFY_NOT_LISTED = 3, /* a kind, operator, truth or unused operand not as listed; in kind 50 a role not 1 to 8, or
                                * touches not 0 to 99 */
    NANNYJIFFY_SORT = 4,       /* an operand not a lower row, or not of the sort asked */
    NANNYJIFFY_NAMING = 5,     /* the naming rule broken, or a last row that is no task by its kind */
    NANNYJIFFY_LIMIT = 6,      /* a type row over 8 leaves, or over 16 binders or marks */
    NANNYJIFFY_TYPING = 7,     /* no typing for the last row as a task */
    NANNYJIFFY_EVENT = 8,      /* event length, byte 10, field, role, path digit or action bad, or a leaf not 0 at actions 2 to
                                * 4; a blank role or action, but no blank leaf and no blank path; a look's role not 1 to 8 */
    NANNYJIFFY_HANDLING = 9,   /* no handling rule derives a step: the flow does not take this event now; a blank leaf meets
                                * leaf kind 0 alone; a Continue, Left or Right whose sums leave the range is not taken, and a
                                * flow whose start left it takes no event */
    NANNYJIFFY_ROWS = 20,      /* rows that no accepted sheet loads to */
    NANNYJIFFY_MEMORY = 21,    /* rows memory at load, state or value memory not of its exact length */
    NANNYJIFFY_NO_STATE = 22,  /* not the writing of a state; a last row that failed as a whole is one where start fails so and
                                * the cells have their first contents, and nowhere else; touches left of a row of kind 50 are
                                * 0 to its C */
    NANNYJIFFY_NO_REST = 23,   /* normalising would change the state */
    NANNYJIFFY_LIST = 24,      /* list memory under 35 bytes an entry */
    NANNYJIFFY_ROLE = 30,      /* a rule derives a step, but a row of kind 50 that the event passes, from the last row to the row
                                * that takes it, is another role's */
    NANNYJIFFY_TOUCHES = 31,   /* the same, and all of these rows are the event's role's, but one has no touch left */
    NANNYJIFFY_PRICES = 32,    /* a price line unreadable, out of range, of a repeated code, or too many; a blank is unreadable,
                                * and so is a part of a line; a code is any number */
    NANNYJIFFY_ORDER = 33,     /* over 64 values, or one that is not a code, copies 0 to 9999 and six words 0; a part of a value
                                * is none */
    NANNYJIFFY_NO_PRICE = 34   /* a value whose code no price line has, also where its copies are 0 */
};

/* Loads a sheet. Asks 1, 21, 2, 3, 4, 5, 6, 7.
 *   sheet  read: the lines, 45 bytes each
 *   rows   accepted: every word written, kind, A, B and C of each line; 4 words a line exactly, else 21 */
uint32_t nannyjiffy_load(const uint8_t *sheet, size_t sheet_bytes, int32_t *rows, size_t rows_words);

/* Starts a flow: the cells' first contents, and the last row evaluated and normalised. Asks 20, 21.
 * A failed start is an accepted one: where a sum, difference or product of the last row leaves the signed 32 bits, the row fails
 * as a whole, with the cells' first contents. The number is 0 and strides is 1; look then shows a flow that fails, without a
 * value and without entries, and handle answers 9 to every event that can be read.
 *   rows     read: what load wrote; any count and content that no accepted sheet loads to is 20
 *   state    accepted: every word written, whatever it held; 16 words a row exactly, else 21
 *   strides  how many strides normalising took, at most 1 more than the rows of kind 43 and 47; refused: 0 */
uint32_t nannyjiffy_start(const int32_t *rows, size_t rows_words, int32_t *state, size_t state_words, uint32_t *strides);

/* Looks at a rest, in a role. Asks 20, 21, 22, 23, 8, 24.
 *   rows    read, as by start
 *   state   read: what start or handle wrote; 16 words a row exactly, else 21
 *   role    who looks, 1 to 8, else 8; the list has just what this role may do now, all else is the same for every role
 *   value   accepted: all 8 words written, the value's leaves, unused ones 0, all 0 without a value; 8 words exactly, else 21
 *   list    accepted: the entries from its first byte on, 35 bytes each; the bytes after them keep their content.
 *           Too short for the entries: 24. NANNYJIFFY_LIST_BYTES(rows) always suffice, and are written in one walk, where
 *           a shorter list is counted first; where there is no entry none is needed: for every role in a quiet flow, for
 *           one role while another can go on, and for all once touches are spent
 *   valued  1 with a value, else 0; refused: 0
 *   fails   1 where the flow fails, else 0; a flow that fails is quiet, a quiet one need not fail; it is 1 after a failed
 *           start; refused: 0
 *   bytes   how many bytes of the list the entries are, a multiple of 35; refused: 0 */
uint32_t nannyjiffy_look(const int32_t *rows, size_t rows_words, const int32_t *state, size_t state_words, uint32_t role,
                         int32_t *value, size_t value_words, uint8_t *list, size_t list_bytes, uint32_t *valued,
                         uint32_t *fails, size_t *bytes);

/* Handles an event, and normalises. Asks 20, 21, 22, 23, 8, 9, 30, 31.
 *   rows     read, as by start
 *   state    a rest; accepted: every word written, the rest that the event leads to, with one touch less in each row of kind 50
 *            that the event passed; 16 words a row exactly, else 21
 *   event    read: 117 bytes, else 8
 *   strides  how many strides normalising took, as by start; refused: 0 */
uint32_t nannyjiffy_handle(const int32_t *rows, size_t rows_words, int32_t *state, size_t state_words,
                           const uint8_t *event, size_t event_bytes, uint32_t *strides);

/* Prices an order. Asks 32 of the whole price list, then 33 of the whole order, then 34.
 *   prices  read: the lines, 25 bytes each; no bytes are a list without a price
 *   order   read: the values that look wrote for finished flows of two numbers, code and copies, 8 words each, one after another;
 *           several may have one code; no words are an order, which comes to 0
 *   cents   the sum of copies times price, taken exactly and rounded half up to a cent once, at the end; it may pass 32 bits, and
 *           is at most 63993593601; refused: 0 */
uint32_t nannyjiffy_receipt(const uint8_t *prices, size_t prices_bytes, const int32_t *order, size_t order_words,
                            uint64_t *cents);

#ifdef __cplusplus
}
#endif

#endif
