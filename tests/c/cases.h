/* The file of cases; tests/src/cases.rs says how it is laid out. */
#ifndef CASES_H
#define CASES_H

#include <stddef.h>
#include <stdint.h>

enum { UNDAMAGED = 65535, MOST_SHEETS = 1024, MOST_NAME = 255 };

/* By their numbers in the file. */
enum call { CREW, SPARE, CREW_BY_TRIAL };

struct bytes {
    const uint8_t *at;
    size_t length;
};

struct trial {
    struct bytes sheet;
    size_t damaged;
    uint8_t value;
    enum call call;
    uint32_t cap;
    size_t room;
    uint32_t number;
    char name[MOST_NAME + 1];
    struct bytes written;
};

/* The file in memory, and how far it is read. Whoever opens it frees `whole`. */
struct cases {
    uint8_t *whole;
    struct bytes rest;
    struct bytes sheets[MOST_SHEETS];
    uint32_t left;
};

/* Both end the program where the file is not as it should be. */
struct cases cases_open(const char *path);
struct trial cases_next(struct cases *cases);

#endif
