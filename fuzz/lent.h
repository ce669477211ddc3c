/* What the fuzzers in C share. Every lent memory ends at a page that may not be touched, with guard bytes before it; a call is
 * asked what must hold; and answers are shown to libFuzzer. */
#ifndef LENT_H
#define LENT_H

#define _DEFAULT_SOURCE /* MAP_ANONYMOUS */
#include "nannyjiffy.h"

#include <stdio.h>
#include <stdlib.h>
#include <string.h>
#include <sys/mman.h>

enum { PAGE = 4096, ROOM = 32 * PAGE, GUARD = 64, COUNTERS = 1 << 14 };
enum { PATTERN = 0xc3, WORD = sizeof(int32_t), MOST_WORDS = 6000, MOST_BYTES = 20000 };

/* The archive tells libFuzzer nothing of its branches, so the answers do: libFuzzer keeps an input that sets a new counter. Each
 * file has counters of its own. */
__attribute__((section("__libfuzzer_extra_counters"))) static uint8_t counters[COUNTERS];

static inline void shown(uint32_t what, uint32_t a, uint32_t b) {
    uint32_t hash = (what * 0x9e3779b1u ^ a) * 0x85ebca6bu ^ b * 0xc2b2ae35u;
    counters[(hash ^ hash >> 15) % COUNTERS] = 1;
}

static inline void ask(int holds, const char *what) {
    if (!holds) {
        fprintf(stderr, "exports: %s\n", what);
        abort();
    }
}

/* A memory: `room` is the fence, `own` what a call is to be lent. Words or bytes, by `unit`. */
struct memory {
    uint8_t *room;
    uint8_t own[MOST_WORDS * WORD];
    size_t count, unit;
};

static inline size_t bytes(const struct memory *m) { return m->count * m->unit; }

/* Lends a copy, at the end of the room. */
static inline void *lend(struct memory *m) {
    if (!m->room) {
        m->room = mmap(NULL, ROOM + PAGE, PROT_READ | PROT_WRITE, MAP_PRIVATE | MAP_ANONYMOUS, -1, 0);
        ask(m->room != MAP_FAILED && mprotect(m->room + ROOM, PAGE, PROT_NONE) == 0, "no memory");
    }
    uint8_t *lent = m->room + ROOM - bytes(m);
    memset(lent - GUARD, PATTERN, GUARD);
    memcpy(lent, m->own, bytes(m));
    return lent;
}

/* Whether what was lent is as it was, from `after` on. Asks the guard bytes too. */
static inline int kept(const struct memory *m, size_t after) {
    const uint8_t *lent = m->room + ROOM - bytes(m);
    for (int at = 1; at <= GUARD; at++) ask(lent[-at] == PATTERN, "written before what is lent");
    return memcmp(lent + after, m->own + after, bytes(m) - after) == 0;
}

/* Takes over what a call left. */
static inline void take(struct memory *m) { memcpy(m->own, m->room + ROOM - bytes(m), bytes(m)); }

static inline void resize(struct memory *m, size_t count) {
    size_t most = m->unit == WORD ? MOST_WORDS : MOST_BYTES, before = bytes(m);
    m->count = count < most ? count : most;
    if (bytes(m) > before) memset(m->own + before, 0, bytes(m) - before);
}

static inline void fill(struct memory *m, const uint8_t *from, size_t size) {
    resize(m, size / m->unit);
    memcpy(m->own, from, bytes(m));
}

/* Whether a number is in a list of a call's numbers, which END ends. */
enum { END = 99 };
static inline int listed(uint32_t number, const uint32_t *numbers) {
    for (; *numbers != END; numbers++)
        if (*numbers == number) return 1;
    return 0;
}

static inline int32_t word(const uint8_t *words, size_t at) {
    int32_t word;
    memcpy(&word, words + WORD * at, WORD);
    return word;
}

/* receipts.c: the order of a session begins, has a value more, and is priced; a list of so many bytes, with the rest as order, is
 * priced; and so it is by the frame in front of it, where there is one. */
void begin_order(void);
void order_value(const int32_t *words);
void price_shown(void);
void price_bytes(const uint8_t *data, size_t size, size_t list);
int price_framed(const uint8_t *data, size_t size);

#endif
