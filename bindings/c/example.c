/* Types the queries of the file that standard input holds: prints the answer, or `refused` and the refusal's number. */
#include <stdio.h>

#include "sigla.h"

static uint8_t file[SIGLA_FILE_BYTES + 1];
static uint32_t work[SIGLA_WORDS];
static uint8_t answer[SIGLA_BYTES];

int main(void) {
    size_t length, n = fread(file, 1, sizeof file, stdin);
    uint8_t refusal = sigla_check_length(file, n, work, SIGLA_WORDS, answer, sizeof answer, &length);
    if (refusal != SIGLA_ACCEPTED) {
        printf("refused %u\n", refusal);
        return 1;
    }
    fwrite(answer, 1, length, stdout);
    return 0;
}
