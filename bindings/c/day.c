/* A day at three desks of one cabinet: each types the file that standard input holds until its visits are used up, and the day's end gives
 * everyone a new start. */
#include <stdio.h>

#include "sigla.h"

static uint8_t file[65537];
static uint32_t work[SIGLA_WORDS];
static uint8_t answer[SIGLA_BYTES];

static void print_ceilings(const struct sigla_group *group) {
    for (size_t desk = 0; desk < group->count; desk++) {
        uint32_t visits;
        if (sigla_ceiling(group, desk, &visits) == 0)
            printf("desk %zu may use %u\n", desk, visits);
    }
}

int main(void) {
    size_t n = fread(file, 1, sizeof file, stdin);
    /* a pool of 20 visits: 10 are sure for desk 0, 4 for desk 2, and desk 1 takes what is left */
    const uint32_t shares[3] = {10, 0, 4}, caps[3] = {20, 20, 4};
    struct sigla_group group;
    if (sigla_set_up(&group, 20, shares, 3, caps, 3) != 0)
        return 1;
    print_ceilings(&group);
    for (size_t turn = 0; turn < 9; turn++) {
        size_t desk = turn % 3;
        uint8_t refusal = sigla_check_at(&group, desk, file, n, work, SIGLA_WORDS, answer, sizeof answer);
        printf("desk %zu: outcome %u, has used %u\n", desk, refusal, group.desks[desk].used);
    }
    if (sigla_new_day(&group) != 0)
        return 1;
    print_ceilings(&group);
    return 0;
}
