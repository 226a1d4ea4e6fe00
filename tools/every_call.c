/* Makes every call of the library on each file of standard input, and prints for each file what the calls gave back and a sum of all that they
 * left in their slices. Each file comes after a line of its own, its name and its length (tools/fuzz/corpus --stream).
 *
 * Built with -DSECOND it is linked with a second library, whose calls are named second_sigla_check and so on: both are called on the same
 * slices, and every byte of them is compared. It ends with status 1 where one differs. tools/two_compilers and tools/plain_cpu build it. */
#include <stdio.h>
#include <stdlib.h>

#include "sigla.h"

/* The calls that a file is taken through, and how often. */
enum { CHECK, CHECK_SHORT, CHECK_EXACT, LAMP, WIDEN, NARROW, GROWTH_SAME, GROWTH_GROWN, GROWTH_OTHER, LOAD, INSPECT, INSPECT_FAR, INSPECT_FEW,
       TALLY, SET_UP, CEILING, CHECK_AT, NEW_DAY, CALLS };
static const char *const NAMES[CALLS] = {"check", "check, a short slice", "check, a slice as long as the answer", "lamp", "widen", "narrow",
    "growth, the same file", "growth, one name more", "growth, the file before", "load", "inspect, the first", "inspect, a later one",
    "inspect, few words", "tally", "set_up", "ceiling", "check_at", "new_day"};

struct library {
    uint8_t (*check)(const uint8_t *, size_t, uint32_t *, size_t, uint8_t *, size_t);
    uint8_t (*lamp)(const uint8_t *, size_t, uint32_t *, size_t, uint32_t *);
    uint8_t (*inspect)(const uint8_t *, size_t, uint32_t, uint32_t *, size_t, uint32_t *, size_t, uint32_t *);
    uint8_t (*widen)(const uint8_t *, size_t, uint32_t *, size_t, uint8_t *, size_t);
    uint8_t (*narrow)(const uint8_t *, size_t, uint32_t *, size_t, uint8_t *, size_t);
    uint8_t (*growth)(const uint8_t *, size_t, const uint8_t *, size_t, uint32_t *, size_t);
    uint8_t (*load)(uint32_t, uint8_t *, size_t, size_t *);
    uint8_t (*tally)(struct sigla_tally *, uint32_t, uint16_t);
    uint8_t (*set_up)(struct sigla_group *, uint32_t, const uint32_t *, size_t, const uint32_t *, size_t);
    uint8_t (*ceiling)(const struct sigla_group *, size_t, uint32_t *);
    uint8_t (*new_day)(struct sigla_group *);
    uint8_t (*check_at)(struct sigla_group *, size_t, const uint8_t *, size_t, uint32_t *, size_t, uint8_t *, size_t);
};

static const struct library FIRST = {sigla_check, sigla_lamp, sigla_inspect, sigla_widen, sigla_narrow, sigla_growth, sigla_load, sigla_tally,
                                     sigla_set_up, sigla_ceiling, sigla_new_day, sigla_check_at};

#ifdef SECOND
uint8_t second_sigla_check(const uint8_t *, size_t, uint32_t *, size_t, uint8_t *, size_t);
uint8_t second_sigla_lamp(const uint8_t *, size_t, uint32_t *, size_t, uint32_t *);
uint8_t second_sigla_inspect(const uint8_t *, size_t, uint32_t, uint32_t *, size_t, uint32_t *, size_t, uint32_t *);
uint8_t second_sigla_widen(const uint8_t *, size_t, uint32_t *, size_t, uint8_t *, size_t);
uint8_t second_sigla_narrow(const uint8_t *, size_t, uint32_t *, size_t, uint8_t *, size_t);
uint8_t second_sigla_growth(const uint8_t *, size_t, const uint8_t *, size_t, uint32_t *, size_t);
uint8_t second_sigla_load(uint32_t, uint8_t *, size_t, size_t *);
uint8_t second_sigla_tally(struct sigla_tally *, uint32_t, uint16_t);
uint8_t second_sigla_set_up(struct sigla_group *, uint32_t, const uint32_t *, size_t, const uint32_t *, size_t);
uint8_t second_sigla_ceiling(const struct sigla_group *, size_t, uint32_t *);
uint8_t second_sigla_new_day(struct sigla_group *);
uint8_t second_sigla_check_at(struct sigla_group *, size_t, const uint8_t *, size_t, uint32_t *, size_t, uint8_t *, size_t);

static const struct library OTHER = {second_sigla_check, second_sigla_lamp, second_sigla_inspect, second_sigla_widen, second_sigla_narrow,
                                     second_sigla_growth, second_sigla_load, second_sigla_tally, second_sigla_set_up, second_sigla_ceiling,
                                     second_sigla_new_day, second_sigla_check_at};
#endif

#define GUARD 64 /* bytes behind each slice that no call may touch */

/* What the calls of one library are lent, and what they gave back. Tally and group live on from file to file. */
struct lent {
    uint32_t work[SIGLA_WORDS + GUARD / 4];
    uint8_t answer[SIGLA_BYTES + GUARD];
    uint32_t words[SIGLA_LENT_WORDS + GUARD / 4];
    struct sigla_tally tally;
    struct sigla_group group;
    uint32_t number;
    size_t length;
    uint8_t refusal;
};

/* A call's own choices, the same for both libraries. */
struct chosen {
    const uint8_t *file, *other, *grown;
    size_t file_len, other_len, grown_len, work_len, answer_len, words_len, desk;
    uint32_t number, values[SIGLA_DESKS + 1];
};

static struct lent first;
#ifdef SECOND
static struct lent second;
#endif
static uint64_t state = 1;

static uint32_t drawn(uint32_t below) {
    state ^= state << 13, state ^= state >> 7, state ^= state << 17;
    return (uint32_t)((state >> 11) % below);
}

/* The bytes of each slice that a call is lent and that may not stay as they were, with the guard. */
static void fill(struct lent *l, const struct chosen *c, int byte) {
    memset(l->work, byte, c->work_len * 4 + GUARD);
    memset(l->answer, byte, c->answer_len + GUARD);
    memset(l->words, byte, c->words_len * 4 + GUARD);
    l->number = 7;
    l->length = 7;
}

static void make(const struct library *f, int which, struct lent *l, const struct chosen *c) {
    switch (which) {
    case CHECK: case CHECK_SHORT: case CHECK_EXACT:
        l->refusal = f->check(c->file, c->file_len, l->work, c->work_len, l->answer, c->answer_len);
        break;
    case LAMP:
        l->refusal = f->lamp(c->file, c->file_len, l->work, c->work_len, &l->number);
        break;
    case WIDEN:
        l->refusal = f->widen(c->file, c->file_len, l->work, c->work_len, l->answer, c->answer_len);
        break;
    case NARROW:
        l->refusal = f->narrow(c->file, c->file_len, l->work, c->work_len, l->answer, c->answer_len);
        break;
    case GROWTH_SAME:
        l->refusal = f->growth(c->file, c->file_len, c->file, c->file_len, l->work, c->work_len);
        break;
    case GROWTH_GROWN:
        l->refusal = f->growth(c->file, c->file_len, c->grown, c->grown_len, l->work, c->work_len);
        break;
    case GROWTH_OTHER:
        l->refusal = f->growth(c->other, c->other_len, c->file, c->file_len, l->work, c->work_len);
        break;
    case LOAD:
        l->refusal = f->load(c->number, l->answer, c->answer_len, &l->length);
        break;
    case INSPECT: case INSPECT_FAR: case INSPECT_FEW:
        l->refusal = f->inspect(c->file, c->file_len, c->number, l->work, c->work_len, l->words, c->words_len, &l->number);
        break;
    case TALLY:
        l->refusal = f->tally(&l->tally, c->number, (uint16_t)c->values[0]);
        break;
    case SET_UP:
        l->refusal = f->set_up(&l->group, c->number, c->values, c->desk, c->values + 1, c->desk);
        break;
    case CEILING:
        l->refusal = f->ceiling(&l->group, c->desk, &l->number);
        break;
    case CHECK_AT:
        l->refusal = f->check_at(&l->group, c->desk, c->file, c->file_len, l->work, c->work_len, l->answer, c->answer_len);
        break;
    case NEW_DAY:
        l->refusal = f->new_day(&l->group);
        break;
    }
}

/* What a call is given beside the file. `answered` is the length of the first check's answer. */
static void choose(int which, struct chosen *c, size_t answered) {
    c->work_len = which == TALLY || (which >= SET_UP && which != CHECK_AT) || which == LOAD ? 0 : drawn(50) == 0 ? SIGLA_WORDS - 1 - drawn(3) : SIGLA_WORDS;
    c->answer_len = 0;
    c->words_len = 0;
    switch (which) {
    case CHECK: case WIDEN: case NARROW:
        c->answer_len = SIGLA_BYTES;
        break;
    case CHECK_AT:
        c->answer_len = SIGLA_BYTES - drawn(2) * drawn(SIGLA_BYTES);
        break;
    case CHECK_SHORT:
        c->answer_len = answered == 0 ? drawn(100) : answered - 1 - drawn(2) * drawn((uint32_t)answered);
        break;
    case CHECK_EXACT:
        c->answer_len = answered;
        break;
    case LOAD:
        c->number = drawn(UINT32_MAX);
        c->answer_len = drawn(4) == 0 ? drawn(SIGLA_LOAD_BYTES) : SIGLA_LOAD_BYTES;
        break;
    case INSPECT:
        c->number = 0;
        c->words_len = 4096;
        break;
    case INSPECT_FAR:
        c->number = drawn(2) == 0 ? drawn(4) : drawn(40);
        c->words_len = drawn(8) == 0 ? SIGLA_LENT_WORDS : 4096;
        break;
    case INSPECT_FEW:
        c->number = drawn(3);
        c->words_len = drawn(60);
        break;
    case TALLY:
        c->number = drawn(3) == 0 ? drawn(UINT32_MAX) : drawn(5000);
        c->values[0] = drawn(65536);
        break;
    case SET_UP:
        c->desk = drawn(SIGLA_DESKS + 1);
        c->number = drawn(2000);
        for (size_t i = 0; i <= c->desk; i++)
            c->values[i] = drawn(100) + 60 * (uint32_t)i;
        break;
    }
    if (which == CEILING || which == CHECK_AT)
        c->desk = drawn(SIGLA_DESKS + 2) / (1 + drawn(4));
}

static uint64_t summed(uint64_t sum, const void *from, size_t bytes) {
    for (size_t i = 0; i < bytes; i++)
        sum = (sum ^ ((const uint8_t *)from)[i]) * 0x100000001b3;
    return sum;
}

/* The first bytes of a slice, to the last that is not zero, and how many there are; what stands behind is counted by whether it is zero. */
static uint64_t sum_of(const struct lent *l, const struct chosen *c) {
    uint64_t sum = 0xcbf29ce484222325;
    size_t ends[3] = {c->work_len * 4, c->answer_len, c->words_len * 4};
    const uint8_t *slices[3] = {(const uint8_t *)l->work, l->answer, (const uint8_t *)l->words};
    for (int i = 0; i < 3; i++) {
        while (ends[i] > 0 && slices[i][ends[i] - 1] == 0)
            ends[i]--;
        sum = summed(summed(sum, &ends[i], sizeof ends[i]), slices[i], ends[i]);
    }
    sum = summed(summed(sum, &l->tally, sizeof l->tally), &l->group, sizeof l->group);
    return summed(summed(sum, &l->number, sizeof l->number), &l->length, sizeof l->length);
}

static int guarded(const struct lent *l, const struct chosen *c, int byte) {
    for (size_t i = 0; i < GUARD; i++)
        if (((const uint8_t *)(l->work + c->work_len))[i] != byte || l->answer[c->answer_len + i] != byte || ((const uint8_t *)(l->words + c->words_len))[i] != byte)
            return 0;
    return 1;
}

#ifdef SECOND
static int same(const struct chosen *c) {
    return first.refusal == second.refusal && first.number == second.number && first.length == second.length &&
           memcmp(first.work, second.work, c->work_len * 4 + GUARD) == 0 && memcmp(first.answer, second.answer, c->answer_len + GUARD) == 0 &&
           memcmp(first.words, second.words, c->words_len * 4 + GUARD) == 0 && memcmp(&first.tally, &second.tally, sizeof first.tally) == 0 &&
           memcmp(&first.group, &second.group, sizeof first.group) == 0;
}
#endif

/* The file with one name more after its last one. */
static size_t grow(const uint8_t *file, size_t n, uint8_t *to) {
    static const char MORE[] = "02f09f968b\n";
    size_t at = 0, after = 0;
    while (at < n) {
        const uint8_t *end = memchr(file + at, '\n', n - at);
        if (end == NULL || n - at < 2 || file[at] != '0' || file[at + 1] > '2')
            break;
        at = after = (size_t)(end - file) + 1;
    }
    memcpy(to, file, after);
    memcpy(to + after, MORE, sizeof MORE - 1);
    memcpy(to + after + sizeof MORE - 1, file + after, n - after);
    return n + sizeof MORE - 1;
}

#define ROOM 200000
static uint8_t file[ROOM], before[ROOM], grown[ROOM + 64];

int main(int count, char **arguments) {
    int shows = count > 1 && strcmp(arguments[1], "--lines") == 0;
    size_t length, before_len = 0, files = 0, calls = 0, differ = 0, outcomes[CALLS][256] = {{0}};
    char name[200];
    while (scanf("%199s %zu", name, &length) == 2) {
        if (getchar() != '\n' || length > ROOM || fread(file, 1, length, stdin) != length) {
            fprintf(stderr, "every_call: the files end within %s\n", name);
            return 2;
        }
        files++;
        state = summed(0xcbf29ce484222325, name, strlen(name)) | 1;
        struct chosen c = {.file = file, .file_len = length, .other = before, .other_len = before_len, .grown = grown};
        c.grown_len = grow(file, length, grown);
        size_t answered = 0;
        if (shows)
            printf("%s", name);
        for (int which = 0; which < CALLS; which++) {
            choose(which, &c, answered);
            int byte = (int)drawn(256);
            fill(&first, &c, byte);
            make(&FIRST, which, &first, &c);
            calls++;
            outcomes[which][first.refusal]++;
            if (which == CHECK && first.refusal == 0)
                answered = sigla_length(first.answer, c.answer_len);
            if (!guarded(&first, &c, byte)) {
                printf("%s: %s writes behind its slices\n", name, NAMES[which]);
                differ++;
            }
            if (shows)
                printf(" %u:%016llx", first.refusal, (unsigned long long)sum_of(&first, &c));
#ifdef SECOND
            fill(&second, &c, byte);
            make(&OTHER, which, &second, &c);
            if (!same(&c)) {
                differ++;
                printf("%s: %s differs: %u and %u\n", name, NAMES[which], first.refusal, second.refusal);
                first.tally = second.tally;
                first.group = second.group;
            }
#endif
        }
        if (shows)
            printf("\n");
        memcpy(before, file, length);
        before_len = length;
    }
    for (int which = 0; which < CALLS && !shows; which++) {
        printf("%s:", NAMES[which]);
        for (int i = 0; i < 256; i++)
            if (outcomes[which][i] > 0)
                printf(" %d: %zu", i, outcomes[which][i]);
        printf("\n");
    }
    printf("%zu files, %zu calls, %zu differ\n", files, calls, differ);
    return differ > 0 || files == 0;
}
