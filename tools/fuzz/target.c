/* libFuzzer's target: every call of the library on a file of any bytes, through sigla.h, with what the calls promise of it held against
 * them, and sigla_answer.h on the answer and on the bytes themselves. The slices that are lent stand between pages that nobody may touch, the
 * file on pages that nobody may write: code without sanitizers is caught there as well. */
#define _GNU_SOURCE
#include <stdio.h>
#include <stdlib.h>
#include <string.h>
#include <sys/mman.h>

#include "../../bindings/c/sigla.h"
#include "../../bindings/c/sigla_answer.h"
#include "blocks.h"

#define ROOM 131072             /* bytes of each slice's pages */
#define PAGE 4096

/* Ends the run with what did not hold; libFuzzer keeps the input. */
#define HOLDS(what) \
    do { \
        if (!(what)) { \
            fprintf(stderr, "target.c:%d: does not hold: %s\n", __LINE__, #what); \
            abort(); \
        } \
    } while (0)

/* What a run did, for libFuzzer: an input that does something else is kept. */
__attribute__((section("__libfuzzer_extra_counters"))) static uint8_t done[4096];
enum { OUTCOME = 0, CODE = 256, KIND = 512, VISITS = 768, LENGTH = 832, NODE = 1024, LAMP = 2048, NARROW = 2304, WIDEN = 2560, GROWTH = 2816, DESK = 3072, INSPECT = 3584 };

static uint8_t *file_pages, *other_pages, *work_pages, *answer_pages, *out_pages;
static uint8_t first[SIGLA_BYTES];

static uint64_t state;

static uint32_t below(uint32_t n) {
    state ^= state << 13;
    state ^= state >> 7;
    state ^= state << 17;
    return n == 0 ? 0 : (uint32_t)(state >> 11) % n;
}

static uint32_t word(void) { return below(4) == 0 ? below(9) : below(2) == 0 ? UINT32_MAX - below(9) : (uint32_t)(state >> 32); }

/* Pages between two that nobody may touch. */
static uint8_t *guarded(void) {
    uint8_t *all = mmap(NULL, ROOM + 2 * PAGE, PROT_NONE, MAP_PRIVATE | MAP_ANONYMOUS, -1, 0);
    if (all == MAP_FAILED || mprotect(all + PAGE, ROOM, PROT_READ | PROT_WRITE) != 0) {
        perror("mmap");
        exit(2);
    }
    return all + PAGE;
}

/* A slice of so many bytes, at the start or at the end of its pages, full of something. */
static uint8_t *lent(uint8_t *pages, size_t n) {
    uint8_t *slice = below(2) == 0 ? pages : pages + ROOM - n;
    memset(slice, (int)below(256), n);
    return slice;
}

static uint32_t *words(size_t n) { return (uint32_t *)(void *)lent(work_pages, 4 * n); }

/* Bytes on pages that are only read. */
static const uint8_t *read_only(uint8_t *pages, const uint8_t *data, size_t n) {
    HOLDS(mprotect(pages, ROOM, PROT_READ | PROT_WRITE) == 0);
    uint8_t *slice = below(2) == 0 ? pages : pages + ROOM - n;
    if (n > 0)
        memcpy(slice, data, n);
    HOLDS(mprotect(pages, ROOM, PROT_READ) == 0);
    return slice;
}

static int zero(const void *bytes, size_t n) {
    const uint8_t *at = bytes;
    return n == 0 || (at[0] == 0 && memcmp(at, at + 1, n - 1) == 0);
}

static uint8_t logarithm(uint32_t n) {
    uint8_t l = 0;
    for (; n > 0; n >>= 1)
        l++;
    return l;
}

/* A refusal of the reading: 1 to 10 and 13. */
static int of_the_reading(uint8_t r) { return (r >= 1 && r <= 10) || r == 13; }

/* An answer has the lines that FORMAT.md says, to its end; gives whether there is a diagnostic. */
static int read_answer(const uint8_t *answer, size_t length) {
    static char text[SIGLA_BYTES];
    struct sigla_line line;
    size_t at = 0, nodes = 0, once = 0, queries = 0;
    int diagnosed = 0, got, ended = 0;
    uint8_t before = 0;
    while ((got = sigla_next_line(answer, length, &at, &line)) > 0) {
        size_t n = sigla_text(&line, text, below(2) == 0 ? sizeof text : below(40));
        HOLDS((line.kind == SIGLA_MESSAGE) == (before == SIGLA_DIAGNOSTIC));
        HOLDS(!ended || line.kind == SIGLA_QUERY_NUMBER);
        HOLDS(before != SIGLA_WRITTEN_ONCE || line.kind == SIGLA_WRITTEN_ONCE || line.kind == SIGLA_VISITS_MADE);
        done[KIND + line.kind] = 1;
        switch (line.kind) {
        case SIGLA_NODE_TYPE:
            HOLDS(line.number == nodes++ && n > 0);
            done[NODE + (line.count < 62 ? line.count / 2 : 31) + 32 * (sigla_digit(line.digits[1]))] = 1;
            break;
        case SIGLA_DIAGNOSTIC:
            diagnosed = 1;
            HOLDS(n > 0 && n < 64);
            done[CODE + (line.digits[n + 3] * 31 + line.digits[2 * n - 1]) % 256] = 1;
            break;
        case SIGLA_WRITTEN_ONCE:
            HOLDS(n == 0 && ++once <= nodes);
            break;
        case SIGLA_VISITS_MADE:
            HOLDS(line.number <= SIGLA_VISITS);
            done[VISITS + logarithm(line.number)] = 1;
            ended = 1;
            break;
        case SIGLA_QUERY_NUMBER:
            HOLDS(line.number == queries++ && queries <= SIGLA_QUERIES);
            nodes = once = 0;
            ended = 0;
            break;
        default:
            break;
        }
        before = line.kind;
    }
    HOLDS(got == 0 && at == length && ended);
    done[LENGTH + logarithm((uint32_t)length)] = 1;
    return diagnosed;
}

/* The check; its answer stands in `first`. */
static uint8_t checked(const uint8_t *file, size_t n, size_t *length) {
    uint32_t *work = words(SIGLA_WORDS);
    uint8_t *answer = lent(answer_pages, SIGLA_BYTES);
    uint8_t r = sigla_check_length(file, n, work, SIGLA_WORDS, answer, SIGLA_BYTES, length);
    HOLDS(r <= 13 && r != SIGLA_WORK_TOO_SHORT);
    HOLDS(zero(work, 4 * SIGLA_WORDS) && zero(answer + *length, SIGLA_BYTES - *length));
    done[OUTCOME + r] = 1;
    memcpy(first, answer, SIGLA_BYTES);
    return r;
}

static void lamp(const uint8_t *file, size_t n, uint8_t r, int diagnosed) {
    uint32_t lit = word(), *work = words(SIGLA_WORDS);
    uint8_t l = sigla_lamp(file, n, work, SIGLA_WORDS, &lit);
    HOLDS(zero(work, 4 * SIGLA_WORDS) && lit <= 1 && (l == 0 || lit == 0));
    HOLDS(!of_the_reading(r) || l == r);
    HOLDS(r != SIGLA_ACCEPTED || (l == 0 && (int)lit == diagnosed));
    HOLDS(r != SIGLA_TOO_MANY_VISITS || l == SIGLA_TOO_MANY_VISITS || lit == 1);
    HOLDS(r != SIGLA_ANSWER_TOO_LONG || l == 0);
    done[LAMP + 2 * l + lit] = 1;
}

static void other_lengths(const uint8_t *file, size_t n, uint8_t r, size_t length) {
    size_t rooms[3] = {length, length > 0 ? length - 1 : 0, below((uint32_t)length + 2)};
    for (int i = 0; i < 3; i++) {
        size_t room = rooms[i];
        uint32_t *work = words(SIGLA_WORDS);
        uint8_t *answer = lent(answer_pages, room);
        uint8_t s = sigla_check(file, n, work, SIGLA_WORDS, answer, room);
        HOLDS(zero(work, 4 * SIGLA_WORDS));
        if (r == SIGLA_ACCEPTED && room >= length)
            HOLDS(s == 0 && memcmp(answer, first, length) == 0 && zero(answer + length, room - length));
        else
            HOLDS(s == (r == SIGLA_ACCEPTED ? SIGLA_ANSWER_TOO_LONG : r) && zero(answer, room));
    }
    size_t few = below(2) == 0 ? SIGLA_WORDS - 1 : below(SIGLA_WORDS);
    uint32_t *work = words(few);
    uint8_t *answer = lent(answer_pages, 100);
    HOLDS(sigla_check(file, n, work, few, answer, 100) == SIGLA_WORK_TOO_SHORT && zero(work, 4 * few) && zero(answer, 100));
}

/* Out into the other edition and back. */
static void editions(const uint8_t *file, size_t n, uint8_t r) {
    uint32_t *work = words(SIGLA_WORDS);
    uint8_t *out = lent(out_pages, SIGLA_BYTES);
    uint8_t s = sigla_narrow(file, n, work, SIGLA_WORDS, out, SIGLA_BYTES);
    size_t m = sigla_length(out, SIGLA_BYTES);
    HOLDS(zero(work, 4 * SIGLA_WORDS) && zero(out + m, SIGLA_BYTES - m) && (s == 0) == (m > 0));
    HOLDS(of_the_reading(r) ? s == r : s == 0 || s == SIGLA_NUMBER_TOO_WIDE);
    done[NARROW + s] = 1;
    if (s == 0) {
        const uint8_t *back = read_only(other_pages, out, m);
        work = words(SIGLA_WORDS);
        out = lent(out_pages, SIGLA_BYTES);
        HOLDS(sigla_widen(back, m, work, SIGLA_WORDS, out, SIGLA_BYTES) == 0);
        HOLDS(sigla_length(out, SIGLA_BYTES) == n && memcmp(out, file, n) == 0);
    }
    work = words(SIGLA_WORDS);
    out = lent(out_pages, SIGLA_BYTES);
    s = sigla_widen(file, n, work, SIGLA_WORDS, out, SIGLA_BYTES);
    m = sigla_length(out, SIGLA_BYTES);
    HOLDS(zero(work, 4 * SIGLA_WORDS) && zero(out + m, SIGLA_BYTES - m) && (s == 0) == (m > 0));
    HOLDS(of_the_reading(s) || s == 0 || s == SIGLA_ANSWER_TOO_LONG);
    done[WIDEN + s] = 1;
    if (s == 0) {
        const uint8_t *back = read_only(other_pages, out, m);
        work = words(SIGLA_WORDS);
        out = lent(out_pages, SIGLA_BYTES);
        HOLDS(sigla_narrow(back, m, work, SIGLA_WORDS, out, SIGLA_BYTES) == 0);
        HOLDS(sigla_length(out, SIGLA_BYTES) == n && memcmp(out, file, n) == 0);
    }
}

/* One of the first unifications, in the other way; often in a slice that is too short for it. */
static void inspect(const uint8_t *file, size_t n, uint8_t r) {
    size_t m = below(4) == 0 ? below(64) : ROOM / 4;
    uint32_t *work = words(SIGLA_WORDS), *room = (uint32_t *)lent(out_pages, 4 * m), told = 7;
    uint8_t s = sigla_inspect(file, n, below(8), work, SIGLA_WORDS, room, m, &told);
    HOLDS(zero(work, 4 * SIGLA_WORDS));
    HOLDS(of_the_reading(r) || of_the_reading(s) ? s == r : s == 0 || s == SIGLA_TOO_MANY_VISITS || s == SIGLA_TOO_FEW_WORDS);
    HOLDS(s == 0 ? told <= 3 : told == 0);
    HOLDS((s == 0 && told == 1) || zero(room, 4 * m));
    done[INSPECT + (s == 0 ? 32 + told : s)] = 1;
}

/* The file beside itself, and beside one with a line more. */
static void growth(const uint8_t *file, size_t n, uint8_t r, size_t length) {
    uint32_t *work = words(SIGLA_WORDS);
    uint8_t g = sigla_growth(file, n, file, n, work, SIGLA_WORDS);
    HOLDS(zero(work, 4 * SIGLA_WORDS));
    HOLDS(of_the_reading(r) ? g == SIGLA_OLD_REFUSED : g == SIGLA_PREMISES_HOLD || g == SIGLA_NAMES_ABSENT);
    done[GROWTH + g] = 1;
    static const char *const more[] = {"02f09f968b\n", "0300\n", "040000000000\n", "05000000000000000000\n", "0276616c7565\n"};
    const char *line = more[below(5)];
    static uint8_t grown[ROOM];
    size_t at = 0, k = strlen(line);
    if (n + k > SIGLA_FILE_BYTES)
        return;
    while (at + 2 <= n && memcmp(file + at, line, 2) <= 0) {
        const uint8_t *lf = memchr(file + at, '\n', n - at);
        if (lf == NULL)
            break;
        at = (size_t)(lf - file) + 1;
    }
    if (at > 0)
        memcpy(grown, file, at);
    memcpy(grown + at, line, k);
    if (n > at)
        memcpy(grown + at + k, file + at, n - at);
    const uint8_t *new_file = read_only(other_pages, grown, n + k);
    work = words(SIGLA_WORDS);
    g = sigla_growth(file, n, new_file, n + k, work, SIGLA_WORDS);
    HOLDS(g <= SIGLA_NAMES_ABSENT && zero(work, 4 * SIGLA_WORDS));
    done[GROWTH + 8 + g] = 1;
    if (g == SIGLA_PREMISES_HOLD && r == SIGLA_ACCEPTED) {
        uint8_t *answer = lent(answer_pages, SIGLA_BYTES);
        work = words(SIGLA_WORDS);
        HOLDS(sigla_check(new_file, n + k, work, SIGLA_WORDS, answer, SIGLA_BYTES) == 0);
        HOLDS(memcmp(answer, first, length) == 0 && zero(answer + length, SIGLA_BYTES - length));
    }
}

/* A call at a desk of a group that was set up, or of one of any words. */
static void desks(const uint8_t *file, size_t n, uint8_t r, size_t length) {
    struct sigla_group group, before;
    uint32_t shares[18], caps[18], visits = 1;
    size_t k = below(19), desk = below(18);
    for (size_t i = 0; i < k; i++) {
        shares[i] = below(3) == 0 ? word() : below(5000000);
        caps[i] = below(9) == 0 ? word() : shares[i] + below(2000000);
    }
    memset(&group, (int)below(256), sizeof group);
    uint8_t s = sigla_set_up(&group, below(3) == 0 ? word() : UINT32_MAX - below(100), shares, k, caps, k);
    HOLDS(s == 0 ? group.count == k && k >= 1 && k <= SIGLA_DESKS : s == SIGLA_OUTSIDE_THE_RULES && zero(&group, sizeof group));
    if (below(4) == 0)
        for (size_t i = 0; i < sizeof group / 4; i++)
            ((uint32_t *)(void *)&group)[i] = i == 0 ? below(18) : word();
    before = group;
    s = sigla_ceiling(&group, desk, &visits);
    HOLDS(s == 0 ? visits <= SIGLA_VISITS && desk < group.count : s == SIGLA_OUTSIDE_THE_RULES && visits == 0);
    uint32_t *work = words(SIGLA_WORDS);
    uint8_t *answer = lent(answer_pages, SIGLA_BYTES);
    uint8_t t = sigla_check_at(&group, desk, file, n, work, SIGLA_WORDS, answer, SIGLA_BYTES);
    HOLDS((t == SIGLA_OUTSIDE_THE_RULES) == (s == SIGLA_OUTSIDE_THE_RULES));
    HOLDS(zero(work, 4 * SIGLA_WORDS));
    if (s != 0 || of_the_reading(r))
        HOLDS(memcmp(&group, &before, sizeof group) == 0);
    else
        HOLDS(group.desks[desk].used <= group.desks[desk].cap && group.desks[desk].used >= before.desks[desk].used);
    HOLDS(s != 0 || t == r || t == SIGLA_CEILING_PASSED);
    if (t == SIGLA_ACCEPTED)
        HOLDS(memcmp(answer, first, length) == 0 && zero(answer + length, SIGLA_BYTES - length));
    else
        HOLDS(zero(answer, SIGLA_BYTES));
    done[DESK + t] = 1;
    before = group;
    s = sigla_new_day(&group);
    HOLDS(s == 0 || (s == SIGLA_OUTSIDE_THE_RULES && memcmp(&group, &before, sizeof group) == 0));
    struct sigla_tally tally = {word(), word(), below(1100)}, old = tally;
    uint32_t made = word();
    s = sigla_tally(&tally, made, (uint16_t)word());
    HOLDS(s == 0 || (s == SIGLA_TALLY_TOO_LARGE && memcmp(&tally, &old, sizeof tally) == 0));
    HOLDS(s != 0 || (uint64_t)tally.units * 1000 + tally.remainder == (uint64_t)old.units * 1000 + old.remainder + made);
}

/* The reader of answers takes any bytes. */
static void read_any(const uint8_t *data, size_t n) {
    struct sigla_line line;
    size_t at = 0;
    char text[16];
    while (sigla_next_line(data, n, &at, &line) > 0)
        HOLDS(sigla_text(&line, text, below(17)) == line.count / 2 && at <= n);
}

int LLVMFuzzerTestOneInput(const uint8_t *data, size_t n) {
    static int begun;
    if (!begun) {
        begun = 1;
        file_pages = guarded(), other_pages = guarded(), work_pages = guarded(), answer_pages = guarded(), out_pages = guarded();
        watch_blocks();
        atexit(print_blocks);
    }
    if (n > ROOM - 64)
        return 0;
    state = 0xcbf29ce484222325;
    for (size_t i = 0; i < n; i++)
        state = (state ^ data[i]) * 0x100000001b3;
    state |= 1;
    const uint8_t *file = read_only(file_pages, data, n);
    size_t length;
    uint8_t r = checked(file, n, &length);
    int diagnosed = r == SIGLA_ACCEPTED ? read_answer(first, length) : 0;
    lamp(file, n, r, diagnosed);
    editions(file, n, r);
    inspect(file, n, r);
    growth(file, n, r, length);
    desks(file, n, r, length);
    if (below(4) == 0)
        other_lengths(file, n, r, length);
    read_any(data, n);
    return 0;
}
