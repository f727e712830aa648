/* The jobs of bench/signals.py over libceal, by handles:
 *
 *     library PLACES UPDATES SEED < TEXT
 *
 * TEXT is a source text with its line %%, the lines that make the inputs and run, a line %%, and for each of PLACES a line
 * with the place that is set and the one that is asked for then. It prints the microseconds of building, those of an
 * update, and the sum of all numbers that were asked for. */
#define _POSIX_C_SOURCE 200809L
#include "ceal.h"

#include <inttypes.h>
#include <stdio.h>
#include <stdlib.h>
#include <string.h>
#include <time.h>

static ceal session = CEAL_INIT;

static double now(void) {
    struct timespec time;
    clock_gettime(CLOCK_MONOTONIC, &time);
    return time.tv_sec * 1e6 + time.tv_nsec / 1e3;
}

static void need(int is_well, const char *what) {
    if (is_well) return;
    fprintf(stderr, "library: %s\n", what);
    exit(1);
}

static char *read_all(size_t *size) {
    size_t room = 1 << 24;
    char *text = malloc(room + 1);
    need(text != NULL, "no memory");
    *size = fread(text, 1, room, stdin);
    need(feof(stdin), "the text is too long");
    text[*size] = 0;
    return text;
}

/* Carries out the lines up to one that is %%, and returns what follows it. */
static char *carry_out(char *at) {
    while (strncmp(at, "%%\n", 3)) {
        char *end = strchr(at, '\n');
        need(end && ceal_line(&session, at, (size_t)(end - at)) == CEAL_OK, "a line was refused");
        at = end + 1;
    }
    return at + 3;
}

static uint64_t found(const char *name, size_t size) {
    uint64_t handle;
    need(ceal_find(&session, name, size, &handle) == CEAL_OK, "no such place");
    return handle;
}

int main(int count, char **words) {
    need(count == 4, "PLACES UPDATES SEED");
    size_t size, places = strtoul(words[1], NULL, 10);
    int64_t updates = strtol(words[2], NULL, 10), seed = strtol(words[3], NULL, 10), total = 0;
    char fault[CEAL_FAULT_SIZE], *text = read_all(&size);
    uint64_t *handles = malloc(2 * places * sizeof *handles);
    need(handles != NULL, "no memory");
    char *mark = strstr(text, "\n%%\n");
    need(mark != NULL, "no line %%");
    double begun = now();
    need(ceal_open(&session, text, (size_t)(mark + 4 - text), CEAL_LARGEST_FUEL, fault, sizeof fault) == CEAL_OK, fault);
    char *at = carry_out(mark + 4);
    double built = now();
    for (size_t n = 0; n < places; n++) {
        char *space = strchr(at, ' '), *end = strchr(at, '\n');
        need(space && end && space < end, "a place and what is asked for");
        handles[2 * n] = found(at, (size_t)(space - at));
        handles[2 * n + 1] = found(space + 1, (size_t)(end - space - 1));
        at = end + 1;
    }
    double first = now();
    for (int64_t value = 1; value <= updates; value++) {
        int64_t number;
        seed = seed * 16807 % 2147483647;
        size_t place = (size_t)seed % places;
        need(ceal_set(&session, handles[2 * place], value) == CEAL_OK, "not set");
        need(ceal_propagate(&session) == CEAL_OK, "no update");
        need(ceal_get(&session, handles[2 * place + 1], &number) == CEAL_OK, "no number");
        total += number;
    }
    printf("%f %f %" PRId64 "\n", built - begun, (now() - first) / (double)updates, total);
    return ceal_close(&session) != CEAL_OK;
}
