/* Fulmarinvar: crews, spare counts and signings for job sheets.
 *
 * Three calls plan: each takes a sheet and an answer area and returns 0 or a refusal with a card. Three more open a
 * job, sign its steps as the work goes, and tell how many signings were refused. All memory is lent by the caller, who
 * keeps the job between its calls. The library keeps nothing and allocates nothing: calls may run on several threads
 * at once, as long as no two of them are lent one answer area or one job. */
#ifndef FULMARINVAR_H
#define FULMARINVAR_H

#include <stddef.h>
#include <stdint.h>

#ifdef __cplusplus
extern "C" {
#endif

/* A sheet is a row of cards; card i starts at byte 16 * i. Byte 1 of a step card is 0, or 1 where the step is skipped:
 * it is one of the steps of the sheet, and permissions and scopes may name it, but nobody does it and no rule counts
 * it. The other steps are those that remain.
 *
 * People are in classes, by levels: each class lies in one class of the level above. Byte 1 of the header is the
 * version.
 *   version 1   header byte 12 is zero; two class levels, 1 the shop and 2 the bench
 *   version 2   header byte 12 is the number of class levels, 1 to 3
 * Bytes 13 to 15 of the header are zero in both. A person card has its classes in bytes 8-9 (level 1), 10-11 (level 2)
 * and 14-15 (level 3), low byte first: not zero at the levels that the sheet has, zero at the others. The person is
 * the level after the last class level, and the highest that a rule may name: level 3 in version 1, 2 to 4 in
 * version 2. Everything else is alike: a version 2 sheet with two class levels means what a version 1 sheet with the
 * same cards does. */
#define FULMARINVAR_MOST_CLASS_LEVELS 3
#define FULMARINVAR_CARD_BYTES 16
#define FULMARINVAR_MOST_CARDS 141
#define FULMARINVAR_MOST_SHEET_BYTES 2256
#define FULMARINVAR_MOST_PEOPLE 64
#define FULMARINVAR_MOST_STEPS 12
#define FULMARINVAR_MOST_RULES 64

/* A crew takes 8 bytes a step that remains, 96 at most; a spare count takes 16. */
#define FULMARINVAR_STEP_BYTES 8
#define FULMARINVAR_MOST_CREW_BYTES 96
#define FULMARINVAR_SPARE_BYTES 16
#define FULMARINVAR_MOST_CAP 3

/* Where the count of refused signings stops. */
#define FULMARINVAR_MOST_REFUSALS 1000000

/* The returned number is 0, or refusal * 256 + card: FULMARINVAR_REFUSAL(number) is one of the names below. */
#define FULMARINVAR_REFUSAL(number) ((uint32_t)(number) / 256u)
#define FULMARINVAR_CARD(number) ((uint32_t)(number) % 256u)

/* Of several faults the first is given, in this order: 2, 3, 4, then the faults met along the chains (5 to 9),
 * then 10, 11, 12, 1, 13. Of a signing: 14, 15, 16. */
enum fulmarinvar_refusal {
    FULMARINVAR_DONE = 0,

    /* Caused by the calling program. */
    FULMARINVAR_SHORT_ANSWER = 1, /* answer area below 8 * steps that remain (crew) or 16 bytes (spare); card 0 */
    FULMARINVAR_CAP_TOO_HIGH = 2, /* cap above 3; card 0 */

    /* Caused by whoever wrote the sheet. */
    FULMARINVAR_BAD_LENGTH = 3,          /* length zero, no multiple of 16, or above 2,256; card 0 */
    FULMARINVAR_BAD_HEADER = 4,            /* header not as laid down, its version or number of class levels among it,
                                              or its card number not length / 16; card 0 */
    FULMARINVAR_BAD_INDEX = 5,             /* an index not below the number of cards; the card that holds it */
    FULMARINVAR_CARD_AGAIN = 6,            /* a chain comes to a card already reached; that card */
    FULMARINVAR_WRONG_KIND = 7,            /* a card of another kind than its chain; that card */
    FULMARINVAR_BAD_FIELD = 8,             /* a field outside its values, a class that is zero at a level of the sheet
                                              or not zero at another, or an unnamed byte of a person, step or rule card
                                              that is not zero; that card */
    FULMARINVAR_NONE_OR_TOO_MANY = 9,      /* no people or no steps: card 0; more than 64 people, 12 steps or 64 rules:
                                              the first card too many */
    FULMARINVAR_TAG_TWICE = 10,            /* a tag on two people or on two steps; the first card along the
                                              chain whose tag stood earlier on it */
    FULMARINVAR_CLASS_IN_TWO_CLASSES = 11, /* the first person of whom a class, at any level, stood earlier in another
                                              class of the level above; that card */
    FULMARINVAR_BENCH_IN_TWO_SHOPS = 11,   /* the same, by its name in version 1 */
    FULMARINVAR_LOOSE_CARD = 12,           /* a card on no chain; the lowest */

    /* Caused by the job itself. */
    FULMARINVAR_NO_PLAN = 13, /* no valid plan with everyone present; card 0 */

    /* Caused by whoever signs. */
    FULMARINVAR_UNKNOWN = 14,     /* a step or a person that is not on the sheet, a skipped step, or a job never
                                     opened; card 0 */
    FULMARINVAR_STEP_SIGNED = 15, /* a step that is signed already, by whomever; card 0 */
    FULMARINVAR_NOT_GRANTED = 16  /* no valid plan agrees with this signing and all granted before; card 0 */
};

/* In every call `sheet` is the start of `sheet_len` readable bytes and `answer` of `answer_len` writable ones. All
 * pointers are real and aligned, also where a length is 0, and no two areas lent to a call overlap: the sheet that a
 * job holds is copied out before it is lent with that job. The sheet is never written to; a refusal leaves every byte of
 * the answer area as it was. */

/* The first valid plan. On 0, for the j-th step that remains, along the step chain, counted from 0:
 *   bytes 8 * j to 8 * j + 3       the step's tag, low byte first
 *   bytes 8 * j + 4 to 8 * j + 7   the tag of the person who does it, low byte first
 * Later bytes keep their values; with all steps skipped the crew is empty, and all do. Never refuses with 2. */
uint32_t fulmarinvar_crew(const uint8_t *sheet, size_t sheet_len, uint8_t *answer, size_t answer_len);

/* The same by trying every plan, one after the other: the number and the bytes are those of fulmarinvar_crew on every
 * sheet and every answer area. For small sheets: its time grows as the number of people to the power of the number of
 * steps that remain. On a large sheet it does not end in any useful time: 64 people and 12 steps have 2^72 plans. A
 * host that does not know how large its sheet is tests that first, or calls fulmarinvar_crew. */
uint32_t fulmarinvar_crew_by_trial(const uint8_t *sheet, size_t sheet_len, uint8_t *answer, size_t answer_len);

/* The spare count: the largest t, at most `cap`, such that a valid plan is left whichever t people or fewer stay away.
 * On 0:
 *   byte 0           t
 *   bytes 1 to 3     zero
 *   bytes 4 to 15    three tags of 4 bytes, low byte first: the first t + 1 people, in crew order, without whom no
 *                    valid plan is left, then zero; all zero when t equals the cap
 * Bytes from 16 on keep their values. With all steps skipped t is the cap, however few people there are. */
uint32_t fulmarinvar_spare(const uint8_t *sheet, size_t sheet_len, uint8_t *answer, size_t answer_len, uint32_t cap);

/* A job under work: 2,276 bytes without padding or pointers, which the caller may copy, move and store, for this
 * edition of the library and this byte order. All zero: never opened. Entry j of `signer` is that of the j-th step that
 * remains, counted from 0; zeros follow. What is said of a job holds where it was all zero, or a call has opened it,
 * and its calls alone have changed it since; on any other memory a call ends too, and writes inside the struct only. */
struct fulmarinvar_job {
    uint32_t refusals;                           /* refused signings since the last opening that returned 0 */
    uint32_t sheet_len;                          /* how many bytes the sheet held has */
    uint8_t sheet[FULMARINVAR_MOST_SHEET_BYTES]; /* the sheet, zeros after its end */
    uint8_t signer[FULMARINVAR_MOST_STEPS];      /* who signed each step, counted from 1 in crew order; 0: open */
};

/* Opens a job that has a valid plan, the first time or again. On 0 the job is made anew whatever the memory held
 * before: it holds the sheet, no step is signed and no refusal counted. Refuses with 3 to 13 as fulmarinvar_crew does,
 * never with 1; a refusal leaves every byte of the job as it was and is not counted. The sheet is not needed after the
 * call. */
uint32_t fulmarinvar_open(struct fulmarinvar_job *job, const uint8_t *sheet, size_t sheet_len);

/* Signs a step by a person, both named by their tags. Returns 0 exactly when both are on the sheet, the step remains
 * and is open, and some valid plan gives this step to this person and every signed step to its signer; then the step is
 * signed. So as long as a step is open somebody would be granted it, and with no step open the signers are a valid
 * plan. Refuses with 14, a skipped step too, 15 and 16: the count is then one higher, unless it has reached 1,000,000,
 * and no other byte of the job differs. */
uint32_t fulmarinvar_sign(struct fulmarinvar_job *job, uint32_t step, uint32_t person);

/* How many signings were refused since the last opening that returned 0, or since the start in a job never opened;
 * stops at 1,000,000. */
uint32_t fulmarinvar_refusals(const struct fulmarinvar_job *job);

#ifdef __cplusplus
}
#endif

#endif
