/* The case under way: what is expected in it, and its name where a call touches a byte that faults. */
#ifndef WATCH_H
#define WATCH_H

#include <stddef.h>
#include <stdint.h>

/* From here on a fault ends the program with the name of the case. */
void watch_faults(void);

/* The name is not copied. */
void watch_case(const char *name);

/* What is not as stated is printed, with the name of the case. */
void expect(const char *what, uint32_t found, uint32_t stated);
void expect_bytes(const char *what, const void *found, const void *stated, size_t length);

/* Whether all was as stated since the case began. */
int watch_good(void);

#endif
