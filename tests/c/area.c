#define _DEFAULT_SOURCE
#include "area.h"

#include <stdio.h>
#include <stdlib.h>
#include <sys/mman.h>
#include <unistd.h>

static void *need(void *memory) {
    if (memory == NULL || memory == MAP_FAILED) {
        perror("area");
        exit(2);
    }
    return memory;
}

static void protect(uint8_t *from, size_t length, int allowed) {
    if (mprotect(from, length, allowed) != 0) {
        perror("area");
        exit(2);
    }
}

struct area area_take(size_t length, enum place place) {
    struct area area = {.length = length, .place = place};
    if (place == PLAIN) {
        /* A real pointer also where nothing may be read. */
        area.bytes = need(malloc(length > 0 ? length : 1));
        return area;
    }
    size_t page = (size_t)sysconf(_SC_PAGESIZE);
    size_t inner = (length + page - 1) / page * page;
    area.mapped = inner + 2 * page;
    area.mapping = need(mmap(NULL, area.mapped, PROT_NONE, MAP_PRIVATE | MAP_ANONYMOUS, -1, 0));
    if (inner > 0) {
        protect(area.mapping + page, inner, PROT_READ | PROT_WRITE);
    }
    area.bytes = area.mapping + page + (place == AT_END ? inner - length : 0);
    return area;
}

void area_lock(const struct area *area) {
    size_t page = (size_t)sysconf(_SC_PAGESIZE);
    if (area->place != PLAIN && area->mapped > 2 * page) {
        protect(area->mapping + page, area->mapped - 2 * page, PROT_READ);
    }
}

void area_give_back(struct area *area) {
    if (area->place == PLAIN) {
        free(area->bytes);
    } else {
        munmap(area->mapping, area->mapped);
    }
    area->bytes = NULL;
}
