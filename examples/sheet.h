/* Makes sheets card by card, sheet W, one of version 2 and one whose work is spread, on which the examples work; reads
 * what a host wants of its own sheet. */
#ifndef SHEET_H
#define SHEET_H

#include "fulmarinvar.h"

#include <string.h>

enum { HEADER = 1, PERSON = 2, STEP = 3, RULE = 4 };
enum { SAME = 1, DIFFERENT = 2, MAX_LOAD = 5 };
enum { BY_SHOP = 1, BY_BENCH = 2, BY_PERSON = 3 }; /* the levels of version 1 */
enum { BY_PAIR = 3, BY_ONE = 4 };                  /* those after the bench where there are pairs */

/* A sheet in the making. Cards lie one after the other; each kind has a chain of its own. */
struct sheet {
    uint8_t bytes[FULMARINVAR_MOST_SHEET_BYTES];
    uint16_t cards;
    uint16_t last[RULE + 1];
};

static inline void put16(uint8_t *at, uint16_t value) {
    at[0] = (uint8_t)value;
    at[1] = (uint8_t)(value >> 8);
}

static inline void put32(uint8_t *at, uint32_t value) {
    put16(at, (uint16_t)value);
    put16(at + 2, (uint16_t)(value >> 16));
}

static inline uint16_t get16(const uint8_t *at) {
    return (uint16_t)(at[0] | at[1] << 8);
}

static inline uint32_t get32(const uint8_t *at) {
    return get16(at) | (uint32_t)get16(at + 2) << 16;
}

static inline uint8_t *card(struct sheet *sheet, uint16_t index) {
    return sheet->bytes + FULMARINVAR_CARD_BYTES * index;
}

/* A sheet of version 1, with shops and benches. */
static inline void begin(struct sheet *sheet) {
    memset(sheet, 0, sizeof *sheet);
    sheet->cards = 1;
    card(sheet, 0)[0] = HEADER;
    card(sheet, 0)[1] = 1;
    put16(card(sheet, 0) + 10, 1);
}

/* A sheet of version 2, with one to three class levels. */
static inline void begin_levels(struct sheet *sheet, uint8_t class_levels) {
    begin(sheet);
    card(sheet, 0)[1] = 2;
    card(sheet, 0)[12] = class_levels;
}

/* How many class levels a sheet has above the person. */
static inline uint8_t class_levels(const struct sheet *sheet) {
    return sheet->bytes[1] == 1 ? BY_BENCH : sheet->bytes[12];
}

/* Where the class of a person card at a class level stands. */
static inline uint8_t class_place(uint8_t level) {
    static const uint8_t places[FULMARINVAR_MOST_CLASS_LEVELS] = {8, 10, 14};
    return places[level - 1];
}

/* A new card at the end of its chain: the header names the first, and each card the one after it. */
static inline uint8_t *add(struct sheet *sheet, uint8_t kind) {
    uint16_t index = sheet->cards++;
    uint16_t before = sheet->last[kind];
    put16(before ? card(sheet, before) + 2 : card(sheet, 0) + 2 * kind, index);
    put16(card(sheet, 0) + 10, sheet->cards);
    sheet->last[kind] = index;
    card(sheet, index)[0] = kind;
    return card(sheet, index);
}

/* The classes are those of the sheet's levels, topmost first. Bit j of `may` is set where step j is permitted. */
static inline void person_in(struct sheet *sheet, uint32_t tag, const uint16_t *classes, uint16_t may) {
    uint8_t *at = add(sheet, PERSON);
    put32(at + 4, tag);
    for (uint8_t level = 1; level <= class_levels(sheet); level++) {
        put16(at + class_place(level), classes[level - 1]);
    }
    put16(at + 12, may);
}

static inline void person(struct sheet *sheet, uint32_t tag, uint16_t shop, uint16_t bench, uint16_t may) {
    person_in(sheet, tag, (const uint16_t[]){shop, bench}, may);
}

static inline void step(struct sheet *sheet, uint32_t tag) {
    put32(add(sheet, STEP) + 4, tag);
}

static inline void rule(struct sheet *sheet, uint8_t kind, uint8_t level, uint8_t limit, uint16_t scope) {
    uint8_t *at = add(sheet, RULE);
    at[1] = kind;
    at[4] = level;
    at[5] = limit;
    put16(at + 6, scope);
}

/* The bytes of the cards laid so far. */
static inline size_t sheet_length(const struct sheet *sheet) {
    return (size_t)FULMARINVAR_CARD_BYTES * sheet->cards;
}

/* The card whose index stands there; 0 ends a chain. */
static inline const uint8_t *card_named(const struct sheet *sheet, const uint8_t *index) {
    return get16(index) ? sheet->bytes + FULMARINVAR_CARD_BYTES * get16(index) : NULL;
}

static inline const uint8_t *first_card(const struct sheet *sheet, uint8_t kind) {
    return card_named(sheet, sheet->bytes + 2 * kind);
}

static inline const uint8_t *next_card(const struct sheet *sheet, const uint8_t *at) {
    return card_named(sheet, at + 2);
}

/* The class at a level of the person with this tag, who is on the sheet. */
static inline uint32_t class_of(const struct sheet *sheet, uint32_t tag, uint8_t level) {
    const uint8_t *at = first_card(sheet, PERSON);
    while (get32(at + 4) != tag) {
        at = next_card(sheet, at);
    }
    return level > class_levels(sheet) ? tag : get16(at + class_place(level));
}

/* Sheet W of the paper: 10 and 20 at the same bench, 20 and 30 in the same shop and by different people. */
static inline void sheet_w(struct sheet *sheet) {
    const uint16_t first = 1, second = 2, third = 4;
    begin(sheet);
    person(sheet, 101, 1, 1, first | second | third);
    person(sheet, 102, 1, 1, first | second | third);
    person(sheet, 103, 1, 2, third);
    person(sheet, 104, 2, 3, third);
    step(sheet, 10);
    step(sheet, 20);
    step(sheet, 30);
    rule(sheet, SAME, BY_BENCH, 0, first | second);
    rule(sheet, SAME, BY_SHOP, 0, second | third);
    rule(sheet, DIFFERENT, BY_PERSON, 0, second | third);
}

/* W with a pair for each person, and 10 and 20 by different pairs: at one bench, by 101 and 102. */
static inline void sheet_of_pairs(struct sheet *sheet) {
    const uint16_t first = 1, second = 2, third = 4;
    begin_levels(sheet, BY_PAIR);
    person_in(sheet, 101, (const uint16_t[]){1, 1, 1}, first | second | third);
    person_in(sheet, 102, (const uint16_t[]){1, 1, 2}, first | second | third);
    person_in(sheet, 103, (const uint16_t[]){1, 2, 3}, third);
    person_in(sheet, 104, (const uint16_t[]){2, 3, 4}, third);
    step(sheet, 10);
    step(sheet, 20);
    step(sheet, 30);
    rule(sheet, SAME, BY_BENCH, 0, first | second);
    rule(sheet, SAME, BY_SHOP, 0, second | third);
    rule(sheet, DIFFERENT, BY_ONE, 0, second | third);
    rule(sheet, DIFFERENT, BY_PAIR, 0, first | second);
}

/* Four steps that all may do: no bench does more than two of them, no shop more than three. */
static inline void sheet_of_spread(struct sheet *sheet) {
    const uint16_t all = 15;
    begin(sheet);
    person(sheet, 101, 1, 1, all);
    person(sheet, 102, 1, 1, all);
    person(sheet, 103, 1, 2, all);
    person(sheet, 104, 2, 3, all);
    step(sheet, 10);
    step(sheet, 20);
    step(sheet, 30);
    step(sheet, 40);
    rule(sheet, MAX_LOAD, BY_BENCH, 2, all);
    rule(sheet, MAX_LOAD, BY_SHOP, 3, all);
}

#endif
