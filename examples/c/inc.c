/* The smallest program over ceal.h: runs `inc` of examples/inc.ceal, edits its input, and asks for the number again.
 *
 *     cc -I client examples/c/inc.c libceal.a -o inc && ./inc examples/inc.ceal
 */
#include "ceal.h"

#include <inttypes.h>
#include <stdio.h>
#include <string.h>

/* Carries out a line of a script; tells whether it was answered without a refusal. */
static int done(ceal *c, const char *line) {
    ceal_status status = ceal_line(c, line, strlen(line));
    if (status != CEAL_OK) fprintf(stderr, "%s: status %" PRIu32 "\n", line, status);
    return status == CEAL_OK;
}

int main(int count, char **words) {
    static char text[1 << 16];
    FILE *file = fopen(count > 1 ? words[1] : "examples/inc.ceal", "rb");
    if (!file) {
        perror("inc");
        return 1;
    }
    size_t size = fread(text, 1, sizeof text, file);
    fclose(file);

    ceal c = CEAL_INIT;
    char fault[CEAL_FAULT_SIZE];
    ceal_status status = ceal_open(&c, text, size, 1000000, fault, sizeof fault);
    if (status == CEAL_FAULT) fputs(fault, stderr);
    if (status != CEAL_OK) return 1;

    uint64_t a, b;
    int64_t before, after, steps, work;
    int is_well = done(&c, "mod a int 4") && done(&c, "mod b int 0") && done(&c, "run inc a b");
    is_well = is_well && !ceal_find(&c, "a", 1, &a) && !ceal_find(&c, "b", 1, &b) && !ceal_get(&c, b, &before);
    is_well = is_well && !ceal_set(&c, a, 9) && !ceal_propagate(&c) && !ceal_get(&c, b, &after);
    is_well = is_well && !ceal_ask(&c, "steps", 5, &steps) && !ceal_ask(&c, "work", 4, &work);
    if (is_well)
        printf("b was %" PRId64 ", and with a at 9 it is %" PRId64 "; steps %" PRId64 ", work %" PRId64 "\n", before,
               after, steps, work);
    ceal_close(&c);
    return !is_well;
}
