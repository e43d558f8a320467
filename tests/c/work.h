/* Jobs under work and their sheets, in areas of their own, and the calls with what is expected of them. */
#ifndef WORK_H
#define WORK_H

#include "area.h"
#include "fulmarinvar.h"
#include "sheet.h"

/* What the calls return. */
enum { GRANTED = 0, NO_PLAN = 13 * 256, UNKNOWN = 14 * 256, SIGNED = 15 * 256, REFUSED = 16 * 256 };

/* Where the areas lie that are taken from here on. */
void work_at(enum place place);

/* An area for a job; it holds whatever was there. */
struct area take_job(void);
struct fulmarinvar_job *job_of(const struct area *area);

/* The first bytes of a sheet in a read-only area. */
struct area lend(const struct sheet *sheet, size_t length);

/* Opens with the first bytes of a sheet, which are gone when the call has returned. */
uint32_t open_with(struct fulmarinvar_job *job, const struct sheet *sheet, size_t length);

/* These expect that W is opened, that a signing returns what is stated, and that call and field give that count. */
void open_w(struct fulmarinvar_job *job);
void sign(struct fulmarinvar_job *job, uint32_t step, uint32_t person, uint32_t stated);
void expect_refusals(const struct fulmarinvar_job *job, uint32_t stated);

#endif
