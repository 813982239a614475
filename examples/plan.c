/* Plans the job text on standard input and writes the columns of each extract:
 *   ./build-library && cc -I target/dist examples/plan.c target/dist/libvjolthar.a -o plan && ./plan < examples/volunteers.job */
#include <stdio.h>
#include "vjolthar.h"

int main(void) {
    uint8_t text[VJOLTHAR_TEXT + 1], names[VJOLTHAR_NAMES];
    uint16_t forbidden[VJOLTHAR_FORBIDDEN], marks[VJOLTHAR_MARKS], extracts[VJOLTHAR_EXTRACTS], count;
    size_t length = fread(text, 1, sizeof text, stdin), place, columns, sets, needs, marked;
    unsigned refusal = vjolthar_read(text, length, forbidden, VJOLTHAR_FORBIDDEN, marks, VJOLTHAR_MARKS,
                                     names, VJOLTHAR_NAMES, &place, &columns, &sets, &needs, &marked);
    if (refusal == 0)
        refusal = vjolthar_plan(columns, forbidden, sets, marks, marked, extracts, VJOLTHAR_EXTRACTS, &count);
    if (refusal != 0) {
        printf("refused: %u at %zu\n", refusal, place);
        return 1;
    }
    for (int k = 0; k < count; k++) {
        printf("extract %d:", k + 1);
        for (size_t i = 0; i < columns; i++)
            if (extracts[k] >> i & 1)
                printf(" %.12s", (char *)names + VJOLTHAR_NAME_BYTES * i);
        printf("\n");
    }
    return 0;
}
