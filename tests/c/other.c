#include "other.h"
#include "noise.h"
#include "watch.h"
#include "work.h"

/* W held, with one thing that no call writes. */
void known_cases_of_other_memory(void) {
    struct area area = take_job();
    struct fulmarinvar_job *job = job_of(&area);
    open_w(job);
    job->sheet_len = 2257;
    sign(job, 20, 101, UNKNOWN);
    open_w(job);
    job->sheet_len += 16;
    sign(job, 20, 101, UNKNOWN);
    open_w(job);
    job->signer[0] = 5;
    sign(job, 10, 101, SIGNED);
    sign(job, 20, 101, REFUSED);
    open_w(job);
    job->signer[3] = 255;
    sign(job, 20, 101, GRANTED);
    open_w(job);
    job->refusals = UINT32_MAX;
    sign(job, 30, 104, REFUSED);
    expect("a count above the stop", job->refusals, UINT32_MAX);
    area_give_back(&area);
}

/* What holds of a signing on any memory: a refusal changes the counter alone, a grant one signer. */
static void expect_little_changed(uint32_t number, const struct fulmarinvar_job *job,
                                  const struct fulmarinvar_job *before) {
    int step = 0;
    if (number == GRANTED) {
        while (step < FULMARINVAR_MOST_STEPS - 1 && job->signer[step] == before->signer[step]) {
            step++;
        }
        expect("the signer before", before->signer[step], 0);
        expect("somebody has signed", job->signer[step] != 0, 1);
        expect("the count", job->refusals, before->refusals);
    } else {
        int stopped = before->refusals >= FULMARINVAR_MOST_REFUSALS;
        expect("14, 15 or 16", number == UNKNOWN || number == SIGNED || number == REFUSED, 1);
        expect("the count", job->refusals, before->refusals + (stopped ? 0 : 1));
    }
    struct fulmarinvar_job rest = *job;
    rest.refusals = before->refusals;
    if (number == GRANTED) {
        rest.signer[step] = before->signer[step];
    }
    expect_bytes("the rest of the job", &rest, before, sizeof *before);
}

/* On memory that no call has made the calls end, and touch nothing else. */
void noise_for_a_job(void) {
    enum { JOBS = 6000, SEED = 29 };
    static const uint32_t steps[] = {10, 20, 30, 0}, people[] = {101, 102, 103, 104};
    struct noise numbers = {SEED};
    struct sheet w;
    sheet_w(&w);
    struct area area = take_job(), lent = lend(&w, sheet_length(&w));
    struct fulmarinvar_job *job = job_of(&area), before;
    unsigned met[FULMARINVAR_NOT_GRANTED + 1] = {0};
    for (unsigned k = 0; k < JOBS && watch_good(); k++) {
        noise_job(&numbers, k, w.bytes, (uint32_t)lent.length, job);
        for (int calls = 0; calls < 4; calls++) {
            before = *job;
            uint32_t step = steps[noise_number(&numbers) % 4], person = people[noise_number(&numbers) % 4];
            uint32_t number = fulmarinvar_sign(job, step, person);
            expect_little_changed(number, job, &before);
            met[watch_good() ? FULMARINVAR_REFUSAL(number) : 0]++;
        }
        before = *job;
        expect("an opening cut short", fulmarinvar_open(job, lent.bytes, lent.length - 1), 3 * 256);
        fulmarinvar_refusals(job);
        expect_bytes("the job", job, &before, sizeof before);
        if (k % 8 >= 4) {
            expect("an opening", fulmarinvar_open(job, lent.bytes, lent.length), 0);
            sign(job, 20, 101, GRANTED);
            expect_refusals(job, 0);
        }
    }
    expect("grants and each refusal have come up", met[0] && met[14] && met[15] && met[16], 1);
    area_give_back(&lent);
    area_give_back(&area);
}
