/* A day's work on sheet W: the job is opened, and its steps are signed in the order in which the work falls.
 *
 *   gcc -std=c11 -Wall -Wextra -Werror -pedantic -Iinclude examples/sign.c target/staticlib/libfulmarinvar.a -o sign
 */
#include "fulmarinvar.h"
#include "sheet.h"

#include <inttypes.h>
#include <stdio.h>

static void open_job(struct fulmarinvar_job *job, const struct sheet *sheet) {
    uint32_t number = fulmarinvar_open(job, sheet->bytes, sheet_length(sheet));
    if (number == FULMARINVAR_DONE) {
        printf("OPENED\n");
    } else {
        printf("REFUSED %" PRIu32 " CARD %" PRIu32 "\n", FULMARINVAR_REFUSAL(number), FULMARINVAR_CARD(number));
    }
}

static void sign(struct fulmarinvar_job *job, uint32_t step, uint32_t person) {
    uint32_t number = fulmarinvar_sign(job, step, person);
    printf("SIGN %" PRIu32 " %" PRIu32 " ", step, person);
    if (number == FULMARINVAR_DONE) {
        printf("GRANTED\n");
    } else {
        printf("REFUSED %" PRIu32 "\n", FULMARINVAR_REFUSAL(number));
    }
}

static void tell(const struct fulmarinvar_job *job) {
    printf("REFUSALS %" PRIu32 "\n", fulmarinvar_refusals(job));
}

int main(void) {
    /* All zero: never opened. */
    static struct fulmarinvar_job job;
    struct sheet w;
    sheet_w(&w);

    sign(&job, 30, 103); /* no step is known yet */
    tell(&job);
    open_job(&job, &w);
    begin(&w); /* the job has all it needs of the sheet, whose memory may serve for another */
    sign(&job, 30, 104); /* may do it, but nobody of that shop may do 20: the job could not be finished */
    sign(&job, 30, 102);
    sign(&job, 20, 102); /* has signed 30, and 20 is somebody else's */
    sign(&job, 30, 103); /* signed already */
    sign(&job, 20, 105); /* nobody of that tag */
    sign(&job, 20, 101);
    sign(&job, 10, 102);
    tell(&job);
    return 0;
}
