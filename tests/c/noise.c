#include "noise.h"

#include <string.h>

uint32_t noise_number(struct noise *noise) {
    noise->state ^= noise->state << 13;
    noise->state ^= noise->state >> 7;
    noise->state ^= noise->state << 17;
    return (uint32_t)(noise->state >> 16);
}

static uint32_t below(struct noise *noise, uint32_t bound) {
    return noise_number(noise) % bound;
}

static void fill(struct noise *noise, uint8_t *at, size_t length) {
    for (size_t k = 0; k < length; k++) {
        at[k] = (uint8_t)noise_number(noise);
    }
}

/* A header that fits its number of cards, with indices to some of them. */
static void head(struct noise *noise, struct fulmarinvar_job *job) {
    uint8_t cards = (uint8_t)(1 + below(noise, FULMARINVAR_MOST_CARDS));
    uint8_t header[FULMARINVAR_CARD_BYTES] = {1, 1};
    for (int at = 4; at < 10; at += 2) {
        header[at] = (uint8_t)below(noise, cards);
    }
    header[10] = cards;
    memcpy(job->sheet, header, sizeof header);
    job->sheet_len = (uint32_t)FULMARINVAR_CARD_BYTES * cards;
}

static void changed(struct noise *noise, struct fulmarinvar_job *job) {
    for (uint32_t k = below(noise, 4); k > 0; k--) {
        job->sheet[below(noise, job->sheet_len)] = (uint8_t)below(noise, 16);
    }
}

static uint32_t wrong_length(struct noise *noise, uint32_t length) {
    const uint32_t lengths[] = {0, 16, length - 16, length, length + 16, 2256, 2257, 2272, 65536 + length, UINT32_MAX};
    return lengths[below(noise, sizeof lengths / sizeof lengths[0])];
}

void noise_job(struct noise *noise, unsigned k, const uint8_t *sheet, uint32_t length, struct fulmarinvar_job *job) {
    fill(noise, (uint8_t *)job, sizeof *job);
    if (k % 4 == 1) {
        head(noise, job);
    }
    if (k % 4 < 2) {
        return;
    }
    memcpy(job->sheet, sheet, length);
    job->sheet_len = length;
    for (int step = 0; step < FULMARINVAR_MOST_STEPS; step++) {
        job->signer[step] = below(noise, 3) == 0 ? (uint8_t)below(noise, 8) : 0;
    }
    if (k % 4 == 2) {
        changed(noise, job);
    } else {
        job->sheet_len = wrong_length(noise, length);
        fill(noise, job->signer, below(noise, FULMARINVAR_MOST_STEPS));
    }
}
