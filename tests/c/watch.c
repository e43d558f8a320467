#define _DEFAULT_SOURCE
#include "watch.h"

#include <inttypes.h>
#include <signal.h>
#include <stdio.h>
#include <string.h>
#include <unistd.h>

static const char *current = "";
static int good = 1;

static void put(const char *text) {
    ssize_t ignored = write(STDOUT_FILENO, text, strlen(text));
    (void)ignored;
}

static void faulted(int signal) {
    (void)signal;
    put("FAILED, a byte outside the areas, or of the sheet: ");
    put(current);
    put("\n");
    _exit(1);
}

void watch_faults(void) {
    signal(SIGSEGV, faulted);
    signal(SIGBUS, faulted);
}

void watch_case(const char *name) {
    current = name;
    good = 1;
}

void expect(const char *what, uint32_t found, uint32_t stated) {
    if (found != stated) {
        printf("FAILED %s, %s: %" PRIu32 ", not %" PRIu32 "\n", current, what, found, stated);
        good = 0;
    }
}

void expect_bytes(const char *what, const void *found, const void *stated, size_t length) {
    const uint8_t *one = found, *other = stated;
    for (size_t k = 0; k < length; k++) {
        if (one[k] != other[k]) {
            printf("FAILED %s, %s: byte %zu is %d, not %d\n", current, what, k, one[k], other[k]);
            good = 0;
            return;
        }
    }
}

int watch_good(void) {
    return good;
}
