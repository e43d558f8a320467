/* Prints crew, spare count and rule figures of a sheet as the planning program does. No step of it is skipped: those
 * that remain are all. */
#ifndef LISTING_H
#define LISTING_H

#include "fulmarinvar.h"
#include "sheet.h"

#include <inttypes.h>
#include <stdio.h>

enum { CAP = 2 };

static int refused(uint32_t number) {
    printf("REFUSED %" PRIu32 " CARD %" PRIu32 "\n", FULMARINVAR_REFUSAL(number), FULMARINVAR_CARD(number));
    return 1;
}

static int steps_of(const struct sheet *sheet) {
    int steps = 0;
    for (const uint8_t *at = first_card(sheet, STEP); at; at = next_card(sheet, at)) {
        steps++;
    }
    return steps;
}

/* Step j has its own tag, then that of the person who does it. */
static const uint8_t *step_of(const uint8_t *crew, int j) {
    return crew + FULMARINVAR_STEP_BYTES * j;
}

/* The different classes of a rule's level among the people given to the steps of its scope, and the load of each: how
 * many of these steps it holds. */
struct loads {
    uint32_t classes[FULMARINVAR_MOST_STEPS];
    int held[FULMARINVAR_MOST_STEPS];
    int count;
};

static void add_load(struct loads *loads, uint32_t class) {
    int k = 0;
    while (k < loads->count && loads->classes[k] != class) {
        k++;
    }
    if (k == loads->count) {
        loads->classes[loads->count++] = class;
    }
    loads->held[k]++;
}

static int largest_load(const struct loads *loads) {
    int largest = 0;
    for (int k = 0; k < loads->count; k++) {
        largest = loads->held[k] > largest ? loads->held[k] : largest;
    }
    return largest;
}

/* The figure of a rule: how many classes there are, or of kind 5 the largest load. */
static int rule_figure(const struct sheet *sheet, const uint8_t *rule_card, const uint8_t *crew) {
    struct loads loads = {0};
    for (int j = 0; j < steps_of(sheet); j++) {
        if (get16(rule_card + 6) >> j & 1) {
            add_load(&loads, class_of(sheet, get32(step_of(crew, j) + 4), rule_card[4]));
        }
    }
    return rule_card[1] == MAX_LOAD ? largest_load(&loads) : loads.count;
}

static void print_crew(const struct sheet *sheet, const uint8_t *crew) {
    printf("PLAN %d\n", steps_of(sheet));
    for (int j = 0; j < steps_of(sheet); j++) {
        printf("%" PRIu32 " %" PRIu32 "\n", get32(step_of(crew, j)), get32(step_of(crew, j) + 4));
    }
}

static void print_spare(const uint8_t *spare) {
    printf("SPARE %d OF %d\n", spare[0], CAP);
    if (spare[0] < CAP) {
        printf("AWAY");
        for (int k = 0; k <= spare[0]; k++) {
            printf(" %" PRIu32, get32(spare + 4 + 4 * k));
        }
        printf("\n");
    }
}

/* What main returns: 0, or 1 where the sheet is refused. */
static int print_listing(const struct sheet *sheet) {
    size_t length = sheet_length(sheet);
    uint8_t crew[FULMARINVAR_MOST_CREW_BYTES];
    uint8_t spare[FULMARINVAR_SPARE_BYTES];
    uint32_t number = fulmarinvar_crew(sheet->bytes, length, crew, sizeof crew);
    if (number == FULMARINVAR_DONE) {
        number = fulmarinvar_spare(sheet->bytes, length, spare, sizeof spare, CAP);
    }
    if (number != FULMARINVAR_DONE) {
        return refused(number);
    }
    print_crew(sheet, crew);
    print_spare(spare);
    for (const uint8_t *at = first_card(sheet, RULE); at; at = next_card(sheet, at)) {
        printf("RULE %d %d %d %d\n", at[1], at[4], at[5], rule_figure(sheet, at, crew));
    }
    return 0;
}

#endif
