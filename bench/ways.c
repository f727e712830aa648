/* Times an update through ceal.h, for bench/ways.py: another number is set at a random place of a list, the run is
 * brought up to date, and the number that follows from it is asked for and looked at.
 *
 *     ways N TURNS < TEXT
 *
 * TEXT is the source text with its line %% and the lines that make a list of N. Two medians in nanoseconds are printed:
 * by handles, and by three lines. It takes the time of each turn by itself, without that of making the lines.
 */
#define _POSIX_C_SOURCE 200809L
#include "ceal.h"

#include <inttypes.h>
#include <stdio.h>
#include <stdlib.h>
#include <string.h>
#include <time.h>

static ceal session = CEAL_INIT;
static uint32_t seed = 7;

static int64_t now(void) {
    struct timespec time;
    clock_gettime(CLOCK_MONOTONIC, &time);
    return time.tv_sec * INT64_C(1000000000) + time.tv_nsec;
}

static void need(int is_well, const char *what) {
    if (is_well) return;
    fprintf(stderr, "ways: %s\n", what);
    exit(1);
}

static uint32_t below(uint32_t most) {
    seed = seed * 1664525u + 1013904223u;
    return (seed >> 8) % most;
}

static int by_size(const void *a, const void *b) {
    int64_t one = *(const int64_t *)a, other = *(const int64_t *)b;
    return (one > other) - (one < other);
}

static void tell(int64_t *spent, uint32_t turns) {
    qsort(spent, turns, sizeof *spent, by_size);
    printf("%" PRId64 "\n", spent[turns / 2]);
}

/* Opens the session over the source, and carries out the lines after it. */
static void open_session(char *text, size_t size) {
    char fault[CEAL_FAULT_SIZE];
    ceal_status status = ceal_open(&session, text, size, CEAL_LARGEST_FUEL, fault, sizeof fault);
    need(status == CEAL_OK, status == CEAL_FAULT ? fault : "no session");
    char *at = strstr(text, "\n%%\n");
    need(at != NULL, "no line %%");
    for (at += 4; at < text + size;) {
        char *end = memchr(at, '\n', (size_t)(text + size - at));
        need(end && ceal_line(&session, at, (size_t)(end - at)) == CEAL_OK, "a line was refused");
        at = end + 1;
    }
}

static uint64_t *handles(uint32_t count, const char *form) {
    uint64_t *found = malloc(count * sizeof *found);
    need(found != NULL, "no memory");
    for (uint32_t at = 0; at < count; at++) {
        char name[64];
        int size = snprintf(name, sizeof name, form, at);
        need(ceal_find(&session, name, (size_t)size, found + at) == CEAL_OK, name);
    }
    return found;
}

static void by_handles(uint32_t count, uint32_t turns, int64_t *spent) {
    uint64_t *from = handles(count, "c%" PRIu32 ".head"), *to = handles(count, "p%" PRIu32 ".held");
    for (uint32_t turn = 0; turn < turns; turn++) {
        uint32_t at = below(count);
        int64_t found = 0, begun = now();
        ceal_status status = ceal_set(&session, from[at], turn);
        status |= ceal_propagate(&session);
        status |= ceal_get(&session, to[at], &found);
        spent[turn] = now() - begun;
        need(status == CEAL_OK && found == (int64_t)turn * 10, "a wrong number");
    }
    free(from);
    free(to);
}

static void by_lines(uint32_t count, uint32_t turns, int64_t *spent) {
    for (uint32_t turn = 0; turn < turns; turn++) {
        char set[64], get[64];
        uint32_t at = below(count);
        size_t set_size = (size_t)snprintf(set, sizeof set, "set c%" PRIu32 ".head %" PRIu32, at, turn + 1);
        size_t get_size = (size_t)snprintf(get, sizeof get, "get p%" PRIu32 ".held", at);
        int64_t found = 0, begun = now();
        ceal_status status = ceal_line(&session, set, set_size);
        status |= ceal_line(&session, "propagate", 9);
        status |= ceal_ask(&session, get, get_size, &found);
        spent[turn] = now() - begun;
        need(status == CEAL_OK && found == (int64_t)(turn + 1) * 10, "a wrong number");
    }
}

int main(int words, char **word) {
    static char text[1 << 22];
    need(words == 3, "N TURNS < TEXT");
    uint32_t count = (uint32_t)strtoul(word[1], NULL, 10), turns = (uint32_t)strtoul(word[2], NULL, 10);
    int64_t *spent = malloc(turns * sizeof *spent);
    size_t size = fread(text, 1, sizeof text - 1, stdin);
    need(spent && count && turns, "no memory, or a number that is 0");
    open_session(text, size);
    by_handles(count, turns, spent);
    tell(spent, turns);
    by_lines(count, turns, spent);
    tell(spent, turns);
    ceal_close(&session);
    free(spent);
    return 0;
}
