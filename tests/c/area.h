/* Areas of memory of an exact length, with a page that faults on the side where a call might go too far. */
#ifndef AREA_H
#define AREA_H

#include <stddef.h>
#include <stdint.h>

/* PLAIN areas come from malloc, for runs under valgrind. */
enum place { AT_END, AT_START, PLAIN };

struct area {
    uint8_t *bytes;
    size_t length;
    enum place place;
    uint8_t *mapping;
    size_t mapped;
};

/* Ends the program where there is no memory. */
struct area area_take(size_t length, enum place place);

/* From here on a write to the area faults; a plain area stays as it is. */
void area_lock(const struct area *area);

void area_give_back(struct area *area);

#endif
