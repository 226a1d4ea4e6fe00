/* Runs every call that takes a file on each file named, on a thread with a stack of SIGLA_STACK bytes and no more; prints the outcomes. With
 * --used before the files the stack is painted before each call, and what each call took at the most is printed instead (no less than 144
 * bytes, which are not painted): tools/stack computes a bound for the same. */
#include <pthread.h>
#include <stdio.h>
#include <stdlib.h>

#include "sigla.h"

#define PAINT 0xa5a55a5ac3c33c3c

static uint8_t file[SIGLA_FILE_BYTES + 1];
static size_t length;
static uint32_t work[SIGLA_WORDS];
static uint8_t answer[SIGLA_BYTES];
static uint8_t other[SIGLA_BYTES];
static uint32_t lent[SIGLA_LENT_WORDS];
static struct sigla_tally tally;

enum { CHECK, LAMP, SET_UP, CEILING, CHECK_AT, NEW_DAY, NARROW, WIDEN, GROWTH, LOAD, INSPECT, TALLY, CALLS };
static const char *const NAMES[CALLS] = {"check", "lamp", "set_up", "ceiling", "check_at", "new_day", "narrow", "widen", "growth", "load", "inspect", "tally"};

/* The painted stack, the least address first; NULL where nothing is painted. */
static uint64_t *painted;
static size_t used[CALLS];

/* Paints the stack below the caller's frame, and gives back where that ends: the place of a call's arguments and return address. */
static __attribute__((noinline)) uint64_t *paint(void) {
    uint64_t *here = __builtin_frame_address(0);
    if (painted != NULL)
        for (volatile uint64_t *at = painted; at < here - 16; at++)
            *at = PAINT;
    return here + 2;
}

static __attribute__((noinline)) void measure(int call, const uint64_t *from) {
    const volatile uint64_t *at = painted;
    if (at == NULL)
        return;
    while (at < from && *at == PAINT)
        at++;
    size_t bytes = (size_t)((const char *)from - (const char *)at);
    if (bytes > used[call])
        used[call] = bytes;
}

#define USES(call, refusal, made)      \
    do {                               \
        uint64_t *from = paint();      \
        refusal = made;                \
        measure(call, from);           \
    } while (0)

static void *calls(void *unused) {
    (void)unused;
    const uint32_t all[1] = {SIGLA_VISITS};
    struct sigla_group group;
    uint32_t lit = 0, visits = 0, told = SIGLA_TOLD_FAILURE, n = 0;
    size_t made;
    uint8_t got[CALLS] = {0};
    USES(CHECK, got[CHECK], sigla_check(file, length, work, SIGLA_WORDS, answer, sizeof answer));
    USES(LAMP, got[LAMP], sigla_lamp(file, length, work, SIGLA_WORDS, &lit));
    USES(SET_UP, got[SET_UP], sigla_set_up(&group, SIGLA_VISITS, all, 1, all, 1));
    USES(CEILING, got[CEILING], sigla_ceiling(&group, 0, &visits));
    USES(CHECK_AT, got[CHECK_AT], sigla_check_at(&group, 0, file, length, work, SIGLA_WORDS, answer, sizeof answer));
    USES(TALLY, got[TALLY], sigla_tally(&tally, group.desks[0].used, 7));
    USES(NEW_DAY, got[NEW_DAY], sigla_new_day(&group));
    USES(NARROW, got[NARROW], sigla_narrow(file, length, work, SIGLA_WORDS, other, sizeof other));
    USES(WIDEN, got[WIDEN], sigla_widen(other, sigla_length(other, sizeof other), work, SIGLA_WORDS, answer, sizeof answer));
    USES(GROWTH, got[GROWTH], sigla_growth(file, length, file, length, work, SIGLA_WORDS));
    USES(LOAD, got[LOAD], sigla_load(7, other, sizeof other, &made));
    /* unifications over the whole run, at growing distances */
    for (; told != SIGLA_TOLD_FEWER && (got[INSPECT] == 0 || got[INSPECT] == SIGLA_TOO_FEW_WORDS); n += n / 8 + 1)
        USES(INSPECT, got[INSPECT], sigla_inspect(file, length, n, work, SIGLA_WORDS, lent, SIGLA_LENT_WORDS, &told));
    if (painted == NULL)
        printf("check %u lamp %u %u set_up %u check_at %u narrow %u widen %u growth %u load %u inspect %u %u below %u\n", got[CHECK], got[LAMP], lit,
               got[SET_UP], got[CHECK_AT], got[NARROW], got[WIDEN], got[GROWTH], got[LOAD], got[INSPECT], told, n);
    return NULL;
}

int main(int count, char **arguments) {
    pthread_attr_t attributes;
    pthread_t thread;
    int paints = count > 1 && strcmp(arguments[1], "--used") == 0;
    if (pthread_attr_init(&attributes) != 0 || pthread_attr_setstacksize(&attributes, SIGLA_STACK) != 0)
        return 2;
    if (paints && ((painted = aligned_alloc(4096, SIGLA_STACK)) == NULL || pthread_attr_setstack(&attributes, painted, SIGLA_STACK) != 0))
        return 2;
    for (int i = 1 + paints; i < count; i++) {
        FILE *f = fopen(arguments[i], "rb");
        if (f == NULL)
            return 2;
        length = fread(file, 1, sizeof file, f);
        fclose(f);
        if (pthread_create(&thread, &attributes, calls, NULL) != 0 || pthread_join(thread, NULL) != 0)
            return 2;
    }
    for (int i = 0; i < CALLS && paints; i++)
        printf("%8zu sigla_%s\n", used[i], NAMES[i]);
    return 0;
}
