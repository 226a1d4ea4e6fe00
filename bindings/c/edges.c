/* What an embedder asks of the calls: pointers that are NULL with length 0, slices of every length, words at the end of what is lent, calls
 * at once. Prints how many things held; ends by an assertion where one does not. */
#undef NDEBUG
#include <assert.h>
#include <pthread.h>
#include <stdio.h>
#include <stdlib.h>

#include "sigla.h"
#include "sigla_answer.h"

static const char SMALLEST[] = "01020020\n05000000000000000300\n060000\n";
static const char ANSWER[] = "07000000\n0900000000\n";
/* x where sample {pen = x}, with `sample` keyed by {pen : string}: one unification, of an unknown with a string */
static const char PEN[] = "01020020\n0270656e\n0273616d706c65\n0278\n0301\n030400000000\n040001000100\n"
                          "050000001600000017030002\n050000000f000000180800000000\n0500000008000000180d000000000001\n"
                          "050000000000000001030002\n060003010002\n";
/* x = {f = x}, and x = what could not be read */
static const char INFINITE[] = "01020020\n0278\n0266\n050000000000000001030000\n05000000090000000a030000\n"
                               "05000000040000000b0800010001\n050000000f00000010030000\n0600030000000002\n";
static const char UNREAD[] = "01020020\n0278\n050000000000000001030000\n05000000040000000a0f\n050000000f00000010030000\n"
                             "0600020000000001\n";
static size_t held;

#define HOLDS(what) (assert(what), held++)

static int zero(const void *bytes, size_t n) {
    for (size_t i = 0; i < n; i++)
        if (((const uint8_t *)bytes)[i] != 0)
            return 0;
    return 1;
}

static void *at_once(void *unused) {
    (void)unused;
    uint32_t *work = malloc(SIGLA_WORDS * sizeof *work);
    uint8_t answer[64];
    size_t length;
    for (int i = 0; i < 1000; i++) {
        uint8_t refusal = sigla_check_length((const uint8_t *)SMALLEST, sizeof SMALLEST - 1, work, SIGLA_WORDS, answer, sizeof answer, &length);
        assert(refusal == 0 && length == sizeof ANSWER - 1 && memcmp(answer, ANSWER, length) == 0);
    }
    free(work);
    return NULL;
}

int main(void) {
    const uint8_t *file = (const uint8_t *)SMALLEST;
    size_t n = sizeof SMALLEST - 1, m = sizeof ANSWER - 1, length;
    uint32_t lit = 7, visits = 7;
    struct sigla_group group;
    struct sigla_tally tally = {0, 0, 0};

    /* NULL with length 0, of each slice */
    uint32_t *work = malloc(SIGLA_WORDS * sizeof *work);
    HOLDS(sigla_check(NULL, 0, NULL, 0, NULL, 0) == SIGLA_WORK_TOO_SHORT);
    HOLDS(sigla_check(NULL, 0, work, SIGLA_WORDS, NULL, 0) == SIGLA_MISPLACED_KIND);
    HOLDS(sigla_check_length(file, n, work, SIGLA_WORDS, NULL, 0, &length) == SIGLA_ANSWER_TOO_LONG && length == 0);
    HOLDS(sigla_lamp(NULL, 0, NULL, 0, &lit) == SIGLA_WORK_TOO_SHORT && lit == 0);
    HOLDS(sigla_widen(NULL, 0, work, SIGLA_WORDS, NULL, 0) == SIGLA_MISPLACED_KIND);
    HOLDS(sigla_narrow(file, n, work, SIGLA_WORDS, NULL, 0) == SIGLA_ANSWER_TOO_LONG);
    HOLDS(sigla_growth(NULL, 0, NULL, 0, NULL, 0) == SIGLA_OLD_REFUSED);
    HOLDS(sigla_growth(file, n, NULL, 0, work, SIGLA_WORDS) == SIGLA_NEW_REFUSED);
    HOLDS(sigla_set_up(&group, 0, NULL, 0, NULL, 0) == SIGLA_OUTSIDE_THE_RULES && zero(&group, sizeof group));
    HOLDS(sigla_check_at(&group, 0, NULL, 0, NULL, 0, NULL, 0) == SIGLA_OUTSIDE_THE_RULES);
    HOLDS(sigla_ceiling(&group, 0, &visits) == SIGLA_OUTSIDE_THE_RULES && visits == 0);
    HOLDS(sigla_new_day(&group) == SIGLA_OUTSIDE_THE_RULES);
    HOLDS(sigla_length(NULL, 0) == 0);
    HOLDS(sigla_load(0, NULL, 0, &length) == SIGLA_ANSWER_TOO_LONG && length == 0);

    /* the test load around its length */
    static uint8_t load[SIGLA_LOAD_BYTES + 4];
    memset(load, 0xff, sizeof load);
    HOLDS(sigla_load(7, load, sizeof load, &length) == SIGLA_ACCEPTED && length <= SIGLA_LOAD_BYTES && load[length - 1] == '\n');
    HOLDS(zero(load + length, sizeof load - length));
    for (size_t room = length + 2, all = length; room > all - 3; room--) {
        uint8_t *out = malloc(room);
        memset(out, 0xff, room);
        uint8_t refusal = sigla_load(7, out, room, &length);
        if (room < all)
            HOLDS(refusal == SIGLA_ANSWER_TOO_LONG && length == 0 && zero(out, room));
        else
            HOLDS(refusal == SIGLA_ACCEPTED && length == all && memcmp(out, load, all) == 0 && zero(out + all, room - all));
        free(out);
    }

    /* the plain solver: what is told, refusals, each length of the lent slice, just as long as what was allocated */
    const uint8_t *pen = (const uint8_t *)PEN;
    uint32_t told = 7, few[16];
    struct sigla_binding binding;
    struct sigla_token token;
    size_t from = 0;
    HOLDS(sigla_inspect(NULL, 0, 0, NULL, 0, NULL, 0, &told) == SIGLA_WORK_TOO_SHORT && told == 0);
    HOLDS(sigla_inspect(pen, sizeof PEN - 1, 0, work, SIGLA_WORDS, NULL, 0, &told) == SIGLA_TOO_FEW_WORDS && told == 0);
    HOLDS(sigla_inspect(pen, sizeof PEN - 1, 1, work, SIGLA_WORDS, NULL, 0, &told) == SIGLA_ACCEPTED && told == SIGLA_TOLD_FEWER);
    HOLDS(sigla_inspect(pen, sizeof PEN - 1, UINT32_MAX, work, SIGLA_WORDS, few, 16, &told) == SIGLA_ACCEPTED && told == SIGLA_TOLD_FEWER);
    HOLDS(sigla_inspect((const uint8_t *)INFINITE, sizeof INFINITE - 1, 0, work, SIGLA_WORDS, few, 16, &told) == SIGLA_ACCEPTED);
    HOLDS(told == SIGLA_TOLD_FAILURE && zero(few, sizeof few));
    HOLDS(sigla_inspect((const uint8_t *)INFINITE, sizeof INFINITE - 1, 0, work, SIGLA_WORDS, few, 15, &told) == SIGLA_TOO_FEW_WORDS);
    memset(few, 0xff, sizeof few);
    HOLDS(sigla_inspect((const uint8_t *)UNREAD, sizeof UNREAD - 1, 0, work, SIGLA_WORDS, few, 16, &told) == SIGLA_ACCEPTED);
    HOLDS(told == SIGLA_TOLD_SHUT_OUT && zero(few, sizeof few));
    memset(few, 0xff, sizeof few);
    memset(work, 0xff, SIGLA_WORDS * sizeof *work);
    HOLDS(sigla_inspect(pen, sizeof PEN - 2, 0, work, SIGLA_WORDS, few, 16, &told) == SIGLA_MALFORMED_LINE && told == 0);
    HOLDS(zero(few, sizeof few) && zero(work, SIGLA_WORDS * sizeof *work));
    for (size_t room = 0; room < 10; room++) {
        uint32_t *lent = malloc(room * sizeof *lent + (room == 0));
        memset(lent, 0xff, room * sizeof *lent);
        memset(work, 0xff, SIGLA_WORDS * sizeof *work);
        uint8_t refusal = sigla_inspect(pen, sizeof PEN - 1, 0, work, SIGLA_WORDS, lent, room, &told);
        HOLDS(zero(work, SIGLA_WORDS * sizeof *work));
        if (room < 6) {
            HOLDS(refusal == SIGLA_TOO_FEW_WORDS && told == 0 && zero(lent, room * sizeof *lent));
        } else {
            HOLDS(refusal == SIGLA_ACCEPTED && told == SIGLA_TOLD_SUCCESS && zero(lent + 3, (room - 3) * sizeof *lent));
            from = 0;
            HOLDS(sigla_next_binding(lent, room, &from, &binding) == 1 && binding.unknown == 0 && binding.count == 1);
            HOLDS(binding.type[0] == SIGLA_TOKEN_STRING && sigla_next_binding(lent, room, &from, &binding) == 0 && from == 3);
        }
        free(lent);
    }

    /* bindings in any words */
    const uint32_t bound[] = {11, 5, 5, 2, 9, 3, 1, 9, 7, 7, 2, 11, 6, 6, 1, 10, 4, 9, 9, 5, 0, 11, 7, 8};
    const size_t counts[] = {9, 8, 1};
    from = 0;
    for (uint32_t i = 0; i < 3; i++)
        HOLDS(sigla_next_binding(bound, 24, &from, &binding) == 1 && binding.unknown == 5 + i && binding.count == counts[i]);
    HOLDS(from == 24 && sigla_next_binding(bound, 24, &from, &binding) == 0);
    from = 13;
    HOLDS(sigla_next_token(bound, 24, &from, &token) == 1 && token.kind == SIGLA_TOKEN_UNION && token.number == 1 && from == 15);
    for (size_t end = 1; end < 24; end++) {
        int got = 1;
        for (from = 0; got > 0;)
            got = sigla_next_binding(bound, end, &from, &binding);
        HOLDS(got == (end == 11 || end == 21 ? 0 : -1));
    }
    const uint32_t no[][6] = {{12, 0, 1}, {1}, {11, 0, 0}, {11, 0, 11, 0, 1}, {11, 0, 5, UINT32_MAX, 9, 0}, {11, 0, 9, 0}, {9, 0, 1}};
    for (size_t i = 0; i < sizeof no / sizeof *no; i++) {
        from = 0;
        HOLDS(sigla_next_binding(no[i], 6, &from, &binding) == -1 && from == 0 && binding.type == NULL);
    }

    /* each length of the answer slice, just as long as what was allocated */
    for (size_t room = 0; room < m + 4; room++) {
        uint8_t *answer = malloc(room + (room == 0));
        memset(work, 0xff, SIGLA_WORDS * sizeof *work);
        memset(answer, 0xff, room);
        uint8_t refusal = sigla_check_length(file, n, work, SIGLA_WORDS, answer, room, &length);
        HOLDS(zero(work, SIGLA_WORDS * sizeof *work));
        if (room < m)
            HOLDS(refusal == SIGLA_ANSWER_TOO_LONG && length == 0 && zero(answer, room));
        else
            HOLDS(refusal == SIGLA_ACCEPTED && length == m && memcmp(answer, ANSWER, m) == 0 && zero(answer + m, room - m));
        free(answer);
    }

    /* work slices of other lengths */
    for (size_t words = SIGLA_WORDS - 2; words < SIGLA_WORDS + 3; words++) {
        uint32_t *lent = malloc(words * sizeof *lent);
        uint8_t answer[64];
        memset(lent, 0xff, words * sizeof *lent);
        memset(answer, 0xff, sizeof answer);
        uint8_t refusal = sigla_check(file, n, lent, words, answer, sizeof answer);
        HOLDS(refusal == (words < SIGLA_WORDS ? SIGLA_WORK_TOO_SHORT : SIGLA_ACCEPTED));
        HOLDS(zero(lent, words * sizeof *lent) && zero(answer + (refusal == 0 ? m : 0), sizeof answer - (refusal == 0 ? m : 0)));
        free(lent);
    }

    /* lengths of files that are not there, up to the greatest: refused as such, and nothing is read */
    const uint8_t *nowhere = (const uint8_t *)(uintptr_t)1;
    const size_t beyond[] = {SIGLA_FILE_BYTES + 1, (size_t)1 << 32, SIZE_MAX / 2, SIZE_MAX / 2 + 1, SIZE_MAX - 7, SIZE_MAX};
    const uint32_t all[1] = {SIGLA_VISITS};
    for (size_t i = 0; i < sizeof beyond / sizeof *beyond; i++) {
        uint8_t answer[64];
        uint32_t lent[4];
        HOLDS(sigla_check(nowhere, beyond[i], work, SIGLA_WORDS, answer, sizeof answer) == SIGLA_FILE_TOO_LONG && zero(answer, sizeof answer));
        HOLDS(sigla_lamp(nowhere, beyond[i], work, SIGLA_WORDS, &lit) == SIGLA_FILE_TOO_LONG && lit == 0);
        HOLDS(sigla_inspect(nowhere, beyond[i], 0, work, SIGLA_WORDS, lent, 4, &told) == SIGLA_FILE_TOO_LONG && told == 0 && zero(lent, sizeof lent));
        HOLDS(sigla_widen(nowhere, beyond[i], work, SIGLA_WORDS, answer, sizeof answer) == SIGLA_FILE_TOO_LONG && zero(answer, sizeof answer));
        HOLDS(sigla_narrow(nowhere, beyond[i], work, SIGLA_WORDS, answer, sizeof answer) == SIGLA_FILE_TOO_LONG && zero(answer, sizeof answer));
        HOLDS(sigla_growth(nowhere, beyond[i], file, n, work, SIGLA_WORDS) == SIGLA_OLD_REFUSED);
        HOLDS(sigla_growth(file, n, nowhere, beyond[i], work, SIGLA_WORDS) == SIGLA_NEW_REFUSED);
        HOLDS(sigla_set_up(&group, SIGLA_VISITS, all, 1, all, 1) == 0 && group.count == 1);
        HOLDS(sigla_check_at(&group, 0, nowhere, beyond[i], work, SIGLA_WORDS, answer, sizeof answer) == SIGLA_FILE_TOO_LONG && zero(answer, sizeof answer));
        HOLDS(group.count == 1 && group.desks[0].used == 0 && sigla_ceiling(&group, beyond[i], &visits) == SIGLA_OUTSIDE_THE_RULES && visits == 0);
        HOLDS(sigla_check_at(&group, beyond[i], file, n, work, SIGLA_WORDS, answer, sizeof answer) == SIGLA_OUTSIDE_THE_RULES && zero(answer, sizeof answer));
        HOLDS(sigla_set_up(&group, 0, (const uint32_t *)(const void *)nowhere, beyond[i], (const uint32_t *)(const void *)nowhere, beyond[i]) == SIGLA_OUTSIDE_THE_RULES);
        HOLDS(zero(&group, sizeof group) && sigla_set_up(&group, 0, all, 1, (const uint32_t *)(const void *)nowhere, beyond[i]) == SIGLA_OUTSIDE_THE_RULES);
    }

    /* a pointer to nowhere, with length 0 */
    HOLDS(sigla_check(nowhere, 0, (uint32_t *)(uintptr_t)1, 0, (uint8_t *)(uintptr_t)1, 0) == SIGLA_WORK_TOO_SHORT);
    HOLDS(sigla_check(nowhere, 0, work, SIGLA_WORDS, (uint8_t *)(uintptr_t)1, 0) == SIGLA_MISPLACED_KIND);
    HOLDS(sigla_growth(file, n, nowhere, 0, work, SIGLA_WORDS) == SIGLA_NEW_REFUSED);
    HOLDS(sigla_load(0, (uint8_t *)(uintptr_t)1, 0, &length) == SIGLA_ANSWER_TOO_LONG && length == 0);

    /* two slices that are only read may be one */
    HOLDS(sigla_growth(pen, sizeof PEN - 1, pen, sizeof PEN - 1, work, SIGLA_WORDS) == SIGLA_PREMISES_HOLD);
    HOLDS(sigla_growth(pen, sizeof PEN - 1, pen + 9, sizeof PEN - 10, work, SIGLA_WORDS) == SIGLA_NEW_REFUSED);
    HOLDS(sigla_set_up(&group, 3, (const uint32_t[]){1, 1, 1}, 3, (const uint32_t[]){1, 1, 1}, 3) == 0 && group.count == 3);

    /* bytes at every alignment, words at every one of theirs */
    uint32_t *more = malloc((SIGLA_WORDS + 4) * sizeof *more);
    for (size_t shift = 0; shift < 64; shift++) {
        uint8_t shifted[256], answer[256];
        memcpy(shifted + shift, file, n);
        memset(answer, 0xff, sizeof answer);
        memset(more, 0xff, (SIGLA_WORDS + 4) * sizeof *more);
        HOLDS(sigla_check(shifted + shift, n, more + shift % 4, SIGLA_WORDS, answer + 63 - shift, m + 3) == SIGLA_ACCEPTED);
        HOLDS(memcmp(answer + 63 - shift, ANSWER, m) == 0 && zero(answer + 63 - shift + m, 3) && answer[63 - shift + m + 3] == 0xff);
        HOLDS((shift == 63 || answer[62 - shift] == 0xff) && zero(more + shift % 4, SIGLA_WORDS * sizeof *more));
        for (size_t i = 0; i < 4; i++)
            HOLDS((i < shift % 4 ? more[i] : more[SIGLA_WORDS + i]) == UINT32_MAX);
    }
    free(more);

    /* a tally that is full, and one that no call made */
    HOLDS(sigla_tally(&tally, 2500, 7) == 0 && tally.units == 2 && tally.cents == 14 && tally.remainder == 500);
    tally.units = UINT32_MAX;
    HOLDS(sigla_tally(&tally, 500, 0) == SIGLA_TALLY_TOO_LARGE && tally.units == UINT32_MAX && tally.remainder == 500);
    tally.remainder = 1000;
    HOLDS(sigla_tally(&tally, 0, 0) == SIGLA_TALLY_TOO_LARGE && tally.remainder == 1000);

    /* every number has a reason, and another is no matter */
    for (int number = 0; number < 256; number++)
        HOLDS(strlen(sigla_reason((uint8_t)number)) > 0);

    /* what is no line of an answer */
    const char *broken[] = {"07", "0\n", "0g\n", "\n", "070000\n", "0700\n", "08000000\n", "09000000\n", "0900000000aa\n", "0e\n", "0c00\n", "0b\n"};
    for (size_t i = 0; i < sizeof broken / sizeof *broken; i++) {
        struct sigla_line line;
        size_t at = 0;
        HOLDS(sigla_next_line((const uint8_t *)broken[i], strlen(broken[i]), &at, &line) == -1 && at == 0);
    }
    struct sigla_line line;
    const char *text = "0800000001000000026162\n";
    size_t at = 0;
    char words[3] = "zz";
    HOLDS(sigla_next_line((const uint8_t *)text, strlen(text), &at, &line) == 1 && at == strlen(text));
    HOLDS(line.kind == SIGLA_DIAGNOSTIC && line.start == 1 && line.end == 2);
    HOLDS(sigla_text(&line, NULL, 0) == 2 && sigla_text(&line, words, 2) == 2 && strcmp(words, "a") == 0);
    HOLDS(sigla_text(&line, words, 3) == 2 && strcmp(words, "ab") == 0);
    HOLDS(sigla_next_line((const uint8_t *)text, strlen(text), &at, &line) == 0);

    /* four threads at once */
    pthread_t threads[4];
    for (size_t i = 0; i < 4; i++)
        HOLDS(pthread_create(&threads[i], NULL, at_once, NULL) == 0);
    for (size_t i = 0; i < 4; i++)
        HOLDS(pthread_join(threads[i], NULL) == 0);

    free(work);
    printf("%zu held\n", held);
    return 0;
}
