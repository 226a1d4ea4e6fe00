/* Reads an answer line by line, and the bindings of sigla_inspect, in C or C++. Nothing is allocated and nothing is written but what is passed. Tested, not proved: it takes
 * any bytes and words, and tells what is no line of an answer and no binding.
 *
 *     size_t at = 0;
 *     struct sigla_line line;
 *     while (sigla_next_line(answer, length, &at, &line) > 0)
 *         if (line.kind == SIGLA_DIAGNOSTIC) ...
 *
 *     size_t at = 0;
 *     struct sigla_binding binding;
 *     while (sigla_next_binding(lent, lent_len, &at, &binding) > 0)
 *         ...
 *
 * bindings/c/diagnostics.c and inspect.c are whole programs. */
#ifndef SIGLA_ANSWER_H
#define SIGLA_ANSWER_H

#include <stddef.h>
#include <stdint.h>

#include "sigla.h"

#ifdef __cplusplus
extern "C" {
#endif

/* A line of an answer. What its kind does not have is 0. */
struct sigla_line {
    uint8_t kind;               /* enum sigla_kind */
    uint32_t number;            /* the node (07), the visits (09), the query (0b) */
    uint32_t start, end;        /* the span (08, 0c) */
    const uint8_t *digits;      /* the rest, in hexadecimal: a type (07), a code (08), a message (0a) */
    size_t count;               /* how many digits, an even number */
};

static inline int sigla_digit(uint8_t c) {
    return c >= '0' && c <= '9' ? c - '0' : c >= 'a' && c <= 'f' ? c - 'a' + 10 : -1;
}

/* Takes a number of so many bytes off the line's rest: 1, or 0 where the rest is shorter. */
static inline int sigla_take(struct sigla_line *line, size_t bytes, uint32_t *number) {
    if (line->count < 2 * bytes)
        return 0;
    uint32_t n = 0;
    for (size_t i = 0; i < 2 * bytes; i++)
        n = n << 4 | (uint32_t)sigla_digit(line->digits[i]);
    line->digits += 2 * bytes;
    line->count -= 2 * bytes;
    *number = n;
    return 1;
}

/* The line that starts at `at`: 1, and `at` is after it; 0 at the end; -1 where there is no line of an answer. */
static inline int sigla_next_line(const uint8_t *answer, size_t length, size_t *at, struct sigla_line *line) {
    const struct sigla_line none = {0, 0, 0, 0, NULL, 0};
    *line = none;
    if (*at >= length)
        return 0;
    const uint8_t *first = answer + *at;
    const void *lf = memchr(first, '\n', length - *at);
    if (lf == NULL)
        return -1;
    size_t count = (size_t)((const uint8_t *)lf - first);
    if (count % 2 != 0)
        return -1;
    for (size_t i = 0; i < count; i++)
        if (sigla_digit(first[i]) < 0)
            return -1;
    line->digits = first;
    line->count = count;
    uint32_t kind;
    int is = sigla_take(line, 1, &kind);
    if (!is)
        return -1;
    line->kind = (uint8_t)kind;
    switch (kind) {
    case SIGLA_NODE_TYPE: is = sigla_take(line, 2, &line->number) && line->count > 0; break;
    case SIGLA_DIAGNOSTIC: is = sigla_take(line, 4, &line->start) && sigla_take(line, 4, &line->end); break;
    case SIGLA_VISITS_MADE: is = sigla_take(line, 4, &line->number) && line->count == 0; break;
    case SIGLA_MESSAGE: break;
    case SIGLA_QUERY_NUMBER: is = sigla_take(line, 2, &line->number) && line->count == 0; break;
    case SIGLA_WRITTEN_ONCE: is = sigla_take(line, 4, &line->start) && sigla_take(line, 4, &line->end) && line->count == 0; break;
    default: return -1;
    }
    if (!is)
        return -1;
    *at += count + 1;
    return 1;
}

/* The bytes of a line's rest as a text in `out`, cut where there is no room, and ended by 0 if there is any. Gives the length of the whole
 * text, as snprintf does. */
static inline size_t sigla_text(const struct sigla_line *line, char *out, size_t room) {
    size_t n = line->count / 2;
    for (size_t i = 0; i < n && i + 1 < room; i++)
        out[i] = (char)(sigla_digit(line->digits[2 * i]) << 4 | sigla_digit(line->digits[2 * i + 1]));
    if (room > 0)
        out[n < room ? n : room - 1] = 0;
    return n;
}

/* A token of the words that sigla_inspect leaves. What its kind does not have is 0. */
struct sigla_token {
    uint32_t kind;              /* enum sigla_token_kind */
    uint32_t number;
};

/* The token that starts at `at`: 1, and `at` is after it; 0 at the end or at a zero; -1 where there is no token. */
static inline int sigla_next_token(const uint32_t *words, size_t count, size_t *at, struct sigla_token *token) {
    token->kind = token->number = 0;
    if (*at >= count || words[*at] == 0)
        return 0;
    uint32_t kind = words[*at];
    int is_short = kind < SIGLA_TOKEN_FACT || kind == SIGLA_TOKEN_ERROR;
    if (kind > SIGLA_TOKEN_BINDING || (!is_short && count - *at < 2))
        return -1;
    token->kind = kind;
    if (!is_short)
        token->number = words[*at + 1];
    *at += is_short ? 1 : 2;
    return 1;
}

/* A binding: an unknown, and the words of its type, for sigla_next_token. */
struct sigla_binding {
    uint32_t unknown;
    const uint32_t *type;
    size_t count;
};

/* The binding that starts at `at`, as sigla_next_token does. Types are not nested here: each token tells how many types it owes. */
static inline int sigla_next_binding(const uint32_t *lent, size_t lent_len, size_t *at, struct sigla_binding *binding) {
    const struct sigla_binding none = {0, NULL, 0};
    *binding = none;
    struct sigla_token token;
    size_t next = *at;
    int is = sigla_next_token(lent, lent_len, &next, &token);
    if (is <= 0)
        return is;
    if (token.kind != SIGLA_TOKEN_BINDING)
        return -1;
    uint32_t unknown = token.number;
    size_t first = next;
    for (uint64_t owed = 1; owed > 0;) {
        if (sigla_next_token(lent, lent_len, &next, &token) <= 0)
            return -1;
        if (token.kind == SIGLA_TOKEN_BINDING)
            return -1;
        if (token.kind == SIGLA_TOKEN_RECORD || token.kind == SIGLA_TOKEN_UNION)
            owed += token.number;
        if (token.kind != SIGLA_TOKEN_KEY && token.kind != SIGLA_TOKEN_LABEL)
            owed--;
    }
    binding->unknown = unknown;
    binding->type = lent + first;
    binding->count = next - first;
    *at = next;
    return 1;
}

#ifdef __cplusplus
}
#endif

#endif
