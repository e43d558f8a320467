#include "cases.h"

#include <stdio.h>
#include <stdlib.h>
#include <string.h>

static void stop(const char *why) {
    fprintf(stderr, "cases: %s\n", why);
    exit(2);
}

static struct bytes take(struct cases *cases, size_t length) {
    if (length > cases->rest.length) {
        stop("the file is too short");
    }
    struct bytes taken = {cases->rest.at, length};
    cases->rest.at += length;
    cases->rest.length -= length;
    return taken;
}

/* A number of `length` bytes, low byte first. */
static uint32_t number(struct cases *cases, size_t length) {
    struct bytes taken = take(cases, length);
    uint32_t value = 0;
    for (size_t k = length; k > 0; k--) {
        value = value << 8 | taken.at[k - 1];
    }
    return value;
}

static uint8_t *load(const char *path, size_t *length) {
    FILE *file = fopen(path, "rb");
    if (file == NULL || fseek(file, 0, SEEK_END) != 0) {
        stop("the file cannot be read");
    }
    long size = ftell(file);
    rewind(file);
    uint8_t *whole = size > 0 ? malloc((size_t)size) : NULL;
    if (whole == NULL || fread(whole, 1, (size_t)size, file) != (size_t)size) {
        stop("the file cannot be read");
    }
    fclose(file);
    *length = (size_t)size;
    return whole;
}

struct cases cases_open(const char *path) {
    struct cases cases = {0};
    cases.whole = load(path, &cases.rest.length);
    cases.rest.at = cases.whole;
    uint32_t sheets = number(&cases, 2);
    if (sheets > MOST_SHEETS) {
        stop("too many sheets");
    }
    for (uint32_t k = 0; k < sheets; k++) {
        size_t length = number(&cases, 2);
        cases.sheets[k] = take(&cases, length);
    }
    cases.left = number(&cases, 4);
    return cases;
}

/* What is printed where a damaged sheet has no name. */
static void name_damage(struct trial *trial) {
    static const char *const calls[] = {[CREW] = "crew", [SPARE] = "spare", [CREW_BY_TRIAL] = "crew by trial"};
    if (trial->name[0] == '\0') {
        snprintf(trial->name, sizeof trial->name, "W, %zu bytes, byte %zu is %d: %s", trial->sheet.length,
                 trial->damaged, trial->value, calls[trial->call]);
    }
}

struct trial cases_next(struct cases *cases) {
    struct trial trial = {0};
    uint32_t sheet = number(cases, 2);
    size_t kept = number(cases, 2);
    if (sheet >= MOST_SHEETS || kept > cases->sheets[sheet].length) {
        stop("no such sheet");
    }
    trial.sheet = (struct bytes){cases->sheets[sheet].at, kept};
    trial.damaged = number(cases, 2);
    trial.value = (uint8_t)number(cases, 1);
    uint32_t call = number(cases, 1);
    if (call > CREW_BY_TRIAL) {
        stop("no such call");
    }
    trial.call = (enum call)call;
    trial.cap = number(cases, 4);
    trial.room = number(cases, 2);
    trial.number = number(cases, 4);
    struct bytes name = take(cases, number(cases, 1));
    memcpy(trial.name, name.at, name.length);
    trial.written = take(cases, number(cases, 1));
    if (trial.written.length > trial.room || (trial.damaged != UNDAMAGED && trial.damaged >= kept)) {
        stop("a case does not fit its sheet or its area");
    }
    name_damage(&trial);
    cases->left--;
    return trial;
}
