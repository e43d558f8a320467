#include "work.h"
#include "watch.h"

#include <inttypes.h>
#include <stdio.h>
#include <string.h>

static enum place place = PLAIN;

void work_at(enum place at) {
    place = at;
}

struct fulmarinvar_job *job_of(const struct area *area) {
    return (void *)area->bytes;
}

struct area take_job(void) {
    return area_take(sizeof(struct fulmarinvar_job), place);
}

struct area lend(const struct sheet *sheet, size_t length) {
    struct area area = area_take(length, place);
    memcpy(area.bytes, sheet->bytes, length);
    area_lock(&area);
    return area;
}

uint32_t open_with(struct fulmarinvar_job *job, const struct sheet *sheet, size_t length) {
    struct area lent = lend(sheet, length);
    uint32_t number = fulmarinvar_open(job, lent.bytes, lent.length);
    expect_bytes("the sheet lent", lent.bytes, sheet->bytes, length);
    /* The job needs the sheet no more: from here on it is gone. */
    area_give_back(&lent);
    return number;
}

void open_w(struct fulmarinvar_job *job) {
    struct sheet w;
    sheet_w(&w);
    expect("opening", open_with(job, &w, sheet_length(&w)), 0);
}

void sign(struct fulmarinvar_job *job, uint32_t step, uint32_t person, uint32_t stated) {
    char what[64];
    snprintf(what, sizeof what, "signing of %" PRIu32 " by %" PRIu32, step, person);
    expect(what, fulmarinvar_sign(job, step, person), stated);
}

void expect_refusals(const struct fulmarinvar_job *job, uint32_t stated) {
    expect("refusals", fulmarinvar_refusals(job), stated);
    expect("the field refusals", job->refusals, stated);
}
