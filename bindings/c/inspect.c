/* Solves the n-th unification of the file that standard input holds, in the plain way: `inspect N < FILE` prints what the program
 * sigla_inspect prints, with `refused` and the number for a refusal. */
#include <stdio.h>
#include <stdlib.h>

#include "sigla.h"
#include "sigla_answer.h"

static uint8_t file[SIGLA_FILE_BYTES + 1];
static uint32_t work[SIGLA_WORDS];
static uint32_t lent[SIGLA_LENT_WORDS];

/* By kind. */
static const char *const WORD[] = {"", "Int", "String", "Bytes", "fact ", "record ", "union ", "?", "Error", ".", "|", ""};

int main(int count, char **arguments) {
    if (count != 2) {
        fprintf(stderr, "usage: inspect N < FILE\n");
        return 2;
    }
    uint32_t told;
    size_t at = 0, n = fread(file, 1, sizeof file, stdin);
    uint8_t refusal = sigla_inspect(file, n, (uint32_t)strtoul(arguments[1], NULL, 10), work, SIGLA_WORDS, lent, SIGLA_LENT_WORDS, &told);
    if (refusal != SIGLA_ACCEPTED) {
        printf("refused %u\n", refusal);
        return 1;
    }
    printf("%02x%02x\n", SIGLA_INSPECTED, told);
    struct sigla_binding binding;
    while (sigla_next_binding(lent, SIGLA_LENT_WORDS, &at, &binding) > 0) {
        printf("?%u =", binding.unknown);
        struct sigla_token token;
        for (size_t i = 0; sigla_next_token(binding.type, binding.count, &i, &token) > 0;) {
            int is_short = token.kind < SIGLA_TOKEN_FACT || token.kind == SIGLA_TOKEN_ERROR;
            printf(" %s", WORD[token.kind]);
            if (!is_short)
                printf("%u", token.number);
        }
        printf("\n");
    }
    return 0;
}
