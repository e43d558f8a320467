/* The paper's sheets, and W cut short and damaged, through the calls that plan: number and every byte compared with the
 * file.
 *
 *   trials FILE            the sheet read-only; both areas end, then begin, at a page that faults
 *   trials --plain FILE    areas from malloc, for valgrind */
#include "area.h"
#include "cases.h"
#include "fulmarinvar.h"
#include "watch.h"

#include <inttypes.h>
#include <stdio.h>
#include <stdlib.h>
#include <string.h>

/* What byte k of an area holds before the call. */
static uint8_t fill(size_t k) {
    return (uint8_t)(0xA5 ^ k);
}

static void lay(const struct trial *trial, uint8_t *sheet) {
    memcpy(sheet, trial->sheet.at, trial->sheet.length);
    if (trial->damaged != UNDAMAGED) {
        sheet[trial->damaged] = trial->value;
    }
}

static uint32_t call(const struct trial *trial, const struct area *sheet, const struct area *answer) {
    if (trial->call == SPARE) {
        return fulmarinvar_spare(sheet->bytes, sheet->length, answer->bytes, answer->length, trial->cap);
    }
    if (trial->call == CREW_BY_TRIAL) {
        return fulmarinvar_crew_by_trial(sheet->bytes, sheet->length, answer->bytes, answer->length);
    }
    return fulmarinvar_crew(sheet->bytes, sheet->length, answer->bytes, answer->length);
}

static int as_stated(const struct trial *trial, uint32_t number, const uint8_t *answer) {
    int good = number == trial->number;
    if (!good) {
        printf("FAILED %s: number %" PRIu32 ", not %" PRIu32 "\n", trial->name, number, trial->number);
    }
    for (size_t k = 0; k < trial->room; k++) {
        uint8_t stated = k < trial->written.length ? trial->written.at[k] : fill(k);
        if (answer[k] != stated) {
            printf("FAILED %s: byte %zu is %d, not %d\n", trial->name, k, answer[k], stated);
            good = 0;
        }
    }
    return good;
}

static int sheet_kept(const struct trial *trial, const uint8_t *sheet) {
    for (size_t k = 0; k < trial->sheet.length; k++) {
        uint8_t laid = k == trial->damaged ? trial->value : trial->sheet.at[k];
        if (sheet[k] != laid) {
            printf("FAILED %s: byte %zu of the sheet was written to\n", trial->name, k);
            return 0;
        }
    }
    return 1;
}

static int run(const struct trial *trial, enum place place) {
    struct area sheet = area_take(trial->sheet.length, place);
    struct area answer = area_take(trial->room, place);
    lay(trial, sheet.bytes);
    area_lock(&sheet);
    for (size_t k = 0; k < trial->room; k++) {
        answer.bytes[k] = fill(k);
    }
    watch_case(trial->name);
    uint32_t number = call(trial, &sheet, &answer);
    int good = as_stated(trial, number, answer.bytes) & sheet_kept(trial, sheet.bytes);
    area_give_back(&sheet);
    area_give_back(&answer);
    return good;
}

int main(int count, char **args) {
    int plain = count == 3 && strcmp(args[1], "--plain") == 0;
    if (count != 2 && !plain) {
        fprintf(stderr, "usage: trials [--plain] FILE\n");
        return 2;
    }
    if (!plain) {
        watch_faults();
    }
    struct cases cases = cases_open(args[count - 1]);
    unsigned passed = 0, failed = 0;
    while (cases.left > 0) {
        struct trial trial = cases_next(&cases);
        int good = plain ? run(&trial, PLAIN) : run(&trial, AT_END) & run(&trial, AT_START);
        passed += good ? 1 : 0;
        failed += good ? 0 : 1;
    }
    free(cases.whole);
    printf("%u passed, %u failed\n", passed, failed);
    return failed > 0 || passed == 0;
}
