/* Memory of jobs that no call has made: noise, and nearly a job. */
#ifndef NOISE_H
#define NOISE_H

#include "fulmarinvar.h"

#include <stdint.h>

/* The numbers of a seed that is not zero. */
struct noise {
    uint64_t state;
};

uint32_t noise_number(struct noise *noise);

/* Job k of a run: by turns all noise, noise behind a good header, the sheet with some bytes changed, and the whole
 * sheet with lengths and signers that are none. */
void noise_job(struct noise *noise, unsigned k, const uint8_t *sheet, uint32_t length, struct fulmarinvar_job *job);

#endif
