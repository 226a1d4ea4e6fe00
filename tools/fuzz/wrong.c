/* Calls with a mistake, one for each number of WRONG, so that it can be seen that the target tells them (tools/fuzz/wrong). */
#include "../../bindings/c/sigla.h"

uint8_t __real_sigla_check(const uint8_t *file, size_t file_len, uint32_t *work, size_t work_len, uint8_t *answer, size_t answer_len);
uint8_t __real_sigla_lamp(const uint8_t *file, size_t file_len, uint32_t *work, size_t work_len, uint32_t *lit);
uint8_t __real_sigla_narrow(const uint8_t *file, size_t file_len, uint32_t *work, size_t work_len, uint8_t *out, size_t out_len);
uint8_t __real_sigla_growth(const uint8_t *old, size_t old_len, const uint8_t *new_file, size_t new_len, uint32_t *work, size_t work_len);
uint8_t __wrap_sigla_check(const uint8_t *file, size_t file_len, uint32_t *work, size_t work_len, uint8_t *answer, size_t answer_len);
uint8_t __wrap_sigla_lamp(const uint8_t *file, size_t file_len, uint32_t *work, size_t work_len, uint32_t *lit);
uint8_t __wrap_sigla_narrow(const uint8_t *file, size_t file_len, uint32_t *work, size_t work_len, uint8_t *out, size_t out_len);
uint8_t __wrap_sigla_growth(const uint8_t *old, size_t old_len, const uint8_t *new_file, size_t new_len, uint32_t *work, size_t work_len);

uint8_t __wrap_sigla_check(const uint8_t *file, size_t file_len, uint32_t *work, size_t work_len, uint8_t *answer, size_t answer_len) {
    uint8_t r = __real_sigla_check(file, file_len, work, work_len, answer, answer_len);
    if (WRONG == 1 && r == SIGLA_REPEATED_KEY)
        work[work_len - 1] = 1;                                 /* a word is left after a refusal */
    if (WRONG == 2 && r == SIGLA_ACCEPTED)
        answer[answer_len] = 0;                                 /* a byte too much is cleared */
    if (WRONG == 3 && r == SIGLA_ACCEPTED && answer_len > 0 && answer[0] == '0')
        ((uint8_t *)(uintptr_t)file)[0] = '0';                  /* the file is written */
    if (WRONG == 4 && r == SIGLA_ACCEPTED && file_len > 2000 && answer_len > 4)
        answer[4] = answer[4] == '0' ? '1' : '0';               /* another node's number */
    if (WRONG == 5 && r == SIGLA_TOO_MANY_VISITS)
        r = SIGLA_ACCEPTED;                                     /* an empty answer in the place of 11 */
    return r;
}

uint8_t __wrap_sigla_lamp(const uint8_t *file, size_t file_len, uint32_t *work, size_t work_len, uint32_t *lit) {
    uint8_t r = __real_sigla_lamp(file, file_len, work, work_len, lit);
    if (WRONG == 6 && r == 0 && file_len > 1000)
        *lit = 1;                                               /* long files always shine */
    return r;
}

uint8_t __wrap_sigla_narrow(const uint8_t *file, size_t file_len, uint32_t *work, size_t work_len, uint8_t *out, size_t out_len) {
    uint8_t r = __real_sigla_narrow(file, file_len, work, work_len, out, out_len);
    if (WRONG == 7 && r == SIGLA_NUMBER_TOO_WIDE)
        r = SIGLA_ANSWER_TOO_LONG;                              /* another refusal */
    return r;
}

uint8_t __wrap_sigla_growth(const uint8_t *old, size_t old_len, const uint8_t *new_file, size_t new_len, uint32_t *work, size_t work_len) {
    uint8_t r = __real_sigla_growth(old, old_len, new_file, new_len, work, work_len);
    if (WRONG == 8 && r == SIGLA_NAMES_ABSENT)
        r = SIGLA_PREMISES_HOLD;                                /* absent predicates are no matter */
    return r;
}
