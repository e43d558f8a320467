/* Jobs under work, by sheet W: where each field lies, openings, signings, skipped steps, other levels, copies, and
 * memory that no call has made.
 *
 *   signing            sheets read-only; jobs and sheets end, then begin, at a page that faults
 *   signing --plain    areas from malloc, for valgrind: what was never written to must not matter */
#include "other.h"
#include "watch.h"
#include "work.h"

#include <stddef.h>
#include <stdio.h>
#include <string.h>

enum { JOB = 2276, REFUSALS = 0, SHEET_LEN = 4, SHEET = 8, SIGNER = 2264 };

_Static_assert(sizeof(struct fulmarinvar_job) == JOB, "no padding");
_Static_assert(offsetof(struct fulmarinvar_job, refusals) == REFUSALS, "refusals");
_Static_assert(offsetof(struct fulmarinvar_job, sheet_len) == SHEET_LEN, "sheet_len");
_Static_assert(offsetof(struct fulmarinvar_job, sheet) == SHEET, "sheet");
_Static_assert(offsetof(struct fulmarinvar_job, signer) == SIGNER, "signer");
_Static_assert(_Alignof(struct fulmarinvar_job) <= 4, "a job may end where a page ends");

/* The library writes each field where the header has it. */
static void fields_lie_where_stated(void) {
    struct sheet w;
    sheet_w(&w);
    uint32_t length = (uint32_t)sheet_length(&w), one = 1;
    uint8_t stated[JOB] = {0};
    memcpy(stated + SHEET_LEN, &length, sizeof length);
    memcpy(stated + SHEET, w.bytes, length);

    struct area area = take_job();
    memset(area.bytes, 0xA5, area.length);
    open_w(job_of(&area));
    expect_bytes("opened", area.bytes, stated, JOB);
    sign(job_of(&area), 30, 103, GRANTED);
    stated[SIGNER + 2] = 3;
    expect_bytes("granted", area.bytes, stated, JOB);
    sign(job_of(&area), 30, 103, SIGNED);
    memcpy(stated + REFUSALS, &one, sizeof one);
    expect_bytes("refused", area.bytes, stated, JOB);
    area_give_back(&area);
}

static void work_through(struct fulmarinvar_job *job) {
    sign(job, 30, 104, REFUSED);
    sign(job, 30, 102, GRANTED);
    sign(job, 20, 102, REFUSED);
    sign(job, 30, 103, SIGNED);
    sign(job, 30, 105, UNKNOWN);
    sign(job, 40, 101, UNKNOWN);
    sign(job, 0, 101, UNKNOWN);
    sign(job, 20, 101, GRANTED);
    sign(job, 20, 103, SIGNED);
    sign(job, 10, 102, GRANTED);
    sign(job, 10, 102, SIGNED);
    expect_refusals(job, 8);
    expect_bytes("signers", job->signer, "\2\1\2\0\0\0\0\0\0\0\0\0", FULMARINVAR_MOST_STEPS);
}

/* Nothing was written to the area before. */
static void opened_over_whatever_was_there(void) {
    struct area area = take_job();
    open_w(job_of(&area));
    work_through(job_of(&area));
    open_w(job_of(&area));
    expect_refusals(job_of(&area), 0);
    work_through(job_of(&area));
    area_give_back(&area);
}

/* The sheet's memory is written over after the opening. */
static void the_sheet_is_not_needed(void) {
    struct area area = take_job();
    struct sheet w;
    sheet_w(&w);
    expect("opening", fulmarinvar_open(job_of(&area), w.bytes, sheet_length(&w)), 0);
    memset(&w, 0xA5, sizeof w);
    work_through(job_of(&area));
    area_give_back(&area);
}

static void never_opened(void) {
    struct fulmarinvar_job stated = {.refusals = 2};
    struct area area = take_job();
    memset(area.bytes, 0, area.length);
    expect_refusals(job_of(&area), 0);
    sign(job_of(&area), 10, 101, UNKNOWN);
    sign(job_of(&area), 0, 0, UNKNOWN);
    expect_refusals(job_of(&area), 2);
    expect_bytes("the job", area.bytes, &stated, JOB);
    area_give_back(&area);
}

/* Refused openings of the job leave every byte. */
static void refuse_openings(struct fulmarinvar_job *job) {
    struct fulmarinvar_job before = *job;
    struct sheet bad;
    sheet_w(&bad);
    size_t length = sheet_length(&bad);
    expect("no bytes", open_with(job, &bad, 0), 3 * 256);
    expect("a card and a half", open_with(job, &bad, 24), 3 * 256);
    expect("the header alone", open_with(job, &bad, 16), 4 * 256);
    card(&bad, 6)[15] = 1;
    expect("a bad step", open_with(job, &bad, length), 8 * 256 + 6);
    card(&bad, 6)[15] = 0;
    card(&bad, 6)[1] = 2;
    expect("a step neither skipped nor not", open_with(job, &bad, length), 8 * 256 + 6);
    sheet_of_pairs(&bad);
    length = sheet_length(&bad);
    card(&bad, 0)[12] = 0;
    expect("no class levels", open_with(job, &bad, length), 4 * 256);
    card(&bad, 0)[12] = 2;
    expect("a pair too many", open_with(job, &bad, length), 8 * 256 + 1);
    card(&bad, 0)[12] = 3;
    card(&bad, 3)[14] = 1;
    expect("a pair on two benches", open_with(job, &bad, length), FULMARINVAR_CLASS_IN_TWO_CLASSES * 256 + 3);
    sheet_w(&bad);
    card(&bad, 2)[8] = 2;
    expect("a bench in two shops", open_with(job, &bad, sheet_length(&bad)), FULMARINVAR_BENCH_IN_TWO_SHOPS * 256 + 2);
    sheet_w(&bad);
    rule(&bad, DIFFERENT, BY_SHOP, 0, 6);
    expect("no plan", open_with(job, &bad, sheet_length(&bad)), NO_PLAN);
    expect_bytes("the job", job, &before, JOB);
}

static void refused_openings_leave_every_byte(void) {
    struct area area = take_job();
    struct fulmarinvar_job *job = job_of(&area);
    memset(job, 0, sizeof *job);
    refuse_openings(job);
    memset(job, 0xA5, sizeof *job);
    refuse_openings(job);
    open_w(job);
    sign(job, 30, 102, GRANTED);
    sign(job, 30, 102, SIGNED);
    refuse_openings(job);
    sign(job, 20, 102, REFUSED);
    sign(job, 20, 101, GRANTED);
    expect_refusals(job, 2);
    area_give_back(&area);
}

/* W with the steps of a mask skipped: bit j is set for step j. Its step cards lie behind the header and four people. */
static void sheet_w_skipping(struct sheet *sheet, unsigned skipped) {
    sheet_w(sheet);
    for (uint16_t j = 0; j < 3; j++) {
        card(sheet, (uint16_t)(5 + j))[1] = skipped >> j & 1;
    }
}

/* The steps that remain have their signers one after the other. */
static void a_skipped_step_is_unknown(void) {
    struct area area = take_job();
    struct fulmarinvar_job *job = job_of(&area);
    struct sheet w;
    sheet_w_skipping(&w, 1);
    expect("opening", open_with(job, &w, sheet_length(&w)), 0);
    sign(job, 10, 101, UNKNOWN);
    sign(job, 30, 104, REFUSED);
    sign(job, 30, 103, GRANTED);
    expect_bytes("the second", job->signer, "\0\3\0\0\0\0\0\0\0\0\0\0", FULMARINVAR_MOST_STEPS);
    sign(job, 10, 102, UNKNOWN);
    sign(job, 20, 102, GRANTED);
    sign(job, 20, 101, SIGNED);
    expect_bytes("both", job->signer, "\2\3\0\0\0\0\0\0\0\0\0\0", FULMARINVAR_MOST_STEPS);
    expect_refusals(job, 4);
    area_give_back(&area);
}

static void with_all_skipped_every_step_is_unknown(void) {
    struct fulmarinvar_job stated = {.refusals = 3};
    struct area area = take_job();
    struct sheet w;
    sheet_w_skipping(&w, 7);
    stated.sheet_len = (uint32_t)sheet_length(&w);
    memcpy(stated.sheet, w.bytes, sheet_length(&w));
    expect("opening", open_with(job_of(&area), &w, sheet_length(&w)), 0);
    sign(job_of(&area), 10, 101, UNKNOWN);
    sign(job_of(&area), 20, 101, UNKNOWN);
    sign(job_of(&area), 30, 101, UNKNOWN);
    expect_bytes("the job", area.bytes, &stated, JOB);
    area_give_back(&area);
}

/* 10 and 20 are of one bench and of two pairs. */
static void pairs_are_signed(void) {
    struct area area = take_job();
    struct fulmarinvar_job *job = job_of(&area);
    struct sheet pairs;
    sheet_of_pairs(&pairs);
    expect("opening", open_with(job, &pairs, sheet_length(&pairs)), 0);
    sign(job, 30, 104, REFUSED);
    sign(job, 30, 101, GRANTED);
    sign(job, 20, 101, REFUSED);
    sign(job, 10, 102, REFUSED);
    sign(job, 20, 102, GRANTED);
    sign(job, 10, 101, GRANTED);
    expect_bytes("signers", job->signer, "\1\2\1\0\0\0\0\0\0\0\0\0", FULMARINVAR_MOST_STEPS);
    expect_refusals(job, 3);
    area_give_back(&area);
}

/* W's shops alone: the rule by bench is one by shop, and 2 is the person. */
static void shops_alone_are_signed(void) {
    struct area area = take_job();
    struct fulmarinvar_job *job = job_of(&area);
    struct sheet shops;
    begin_levels(&shops, 1);
    person_in(&shops, 101, (const uint16_t[]){1}, 7);
    person_in(&shops, 102, (const uint16_t[]){1}, 7);
    person_in(&shops, 103, (const uint16_t[]){2}, 7);
    step(&shops, 10);
    step(&shops, 20);
    step(&shops, 30);
    rule(&shops, SAME, BY_SHOP, 0, 3);
    rule(&shops, DIFFERENT, 2, 0, 3);
    rule(&shops, DIFFERENT, BY_SHOP, 0, 6);
    expect("opening", open_with(job, &shops, sheet_length(&shops)), 0);
    sign(job, 10, 103, REFUSED);
    sign(job, 30, 101, REFUSED);
    sign(job, 20, 101, GRANTED);
    sign(job, 10, 101, REFUSED);
    sign(job, 10, 102, GRANTED);
    sign(job, 30, 103, GRANTED);
    expect_bytes("signers", job->signer, "\2\1\3\0\0\0\0\0\0\0\0\0", FULMARINVAR_MOST_STEPS);
    expect_refusals(job, 3);
    area_give_back(&area);
}

/* The original is changed, then gone. */
static void a_copy_is_independent(void) {
    struct area area = take_job(), other = take_job();
    open_w(job_of(&area));
    sign(job_of(&area), 20, 101, GRANTED);
    *job_of(&other) = *job_of(&area);
    sign(job_of(&area), 30, 102, GRANTED);
    sign(job_of(&area), 30, 102, SIGNED);
    expect_refusals(job_of(&other), 0);
    memset(area.bytes, 0xA5, area.length);
    area_give_back(&area);
    sign(job_of(&other), 30, 101, REFUSED);
    sign(job_of(&other), 30, 103, GRANTED);
    sign(job_of(&other), 10, 102, GRANTED);
    expect_refusals(job_of(&other), 1);
    expect_bytes("signers", job_of(&other)->signer, "\2\1\3\0\0\0\0\0\0\0\0\0", FULMARINVAR_MOST_STEPS);
    area_give_back(&other);
}

struct test {
    const char *name;
    void (*run)(void);
};

static const struct test tests[] = {
    {"fields lie where stated", fields_lie_where_stated},
    {"opened over whatever was there", opened_over_whatever_was_there},
    {"the sheet is not needed", the_sheet_is_not_needed},
    {"never opened", never_opened},
    {"refused openings leave every byte", refused_openings_leave_every_byte},
    {"a skipped step is unknown", a_skipped_step_is_unknown},
    {"with all skipped every step is unknown", with_all_skipped_every_step_is_unknown},
    {"pairs are signed", pairs_are_signed},
    {"shops alone are signed", shops_alone_are_signed},
    {"a copy is independent", a_copy_is_independent},
    {"known cases of other memory", known_cases_of_other_memory},
    {"noise for a job", noise_for_a_job},
};

static int run(const struct test *test, enum place at) {
    watch_case(test->name);
    work_at(at);
    test->run();
    return watch_good();
}

int main(int count, char **args) {
    int plain = count == 2 && strcmp(args[1], "--plain") == 0;
    if (count != 1 && !plain) {
        fprintf(stderr, "usage: signing [--plain]\n");
        return 2;
    }
    if (!plain) {
        watch_faults();
    }
    unsigned passed = 0, failed = 0;
    for (size_t k = 0; k < sizeof tests / sizeof tests[0]; k++) {
        int held = plain ? run(&tests[k], PLAIN) : run(&tests[k], AT_END) & run(&tests[k], AT_START);
        passed += held ? 1 : 0;
        failed += held ? 0 : 1;
    }
    printf("%u passed, %u failed\n", passed, failed);
    return failed > 0 || passed == 0;
}
