/* Prints the diagnostics of a file's queries: `diagnostics FILE [TEXT..]`, with a TEXT for each query that the spans point into.
 *
 *     text/form-1.txt:1:36: reject/type-mismatch: expected an integer, found a string
 *
 * The status is 0 where there is none, 1 where there is one, 2 where a file can't be read, 3 where the file is turned down. */
#include <stdio.h>
#include <stdlib.h>

#include "sigla.h"
#include "sigla_answer.h"

static uint8_t file[SIGLA_FILE_BYTES + 1];
static char text[SIGLA_FILE_BYTES];
static uint32_t work[SIGLA_WORDS];
static uint8_t answer[SIGLA_BYTES];
static char words[SIGLA_BYTES];

/* The bytes of a file, at most `room` of them. */
static size_t read_file(const char *path, void *to, size_t room) {
    FILE *f = fopen(path, "rb");
    if (f == NULL) {
        perror(path);
        exit(2);
    }
    size_t n = fread(to, 1, room, f);
    int failed = ferror(f);
    fclose(f);
    if (failed) {
        perror(path);
        exit(2);
    }
    return n;
}

/* Where a span is: by line and column of the query's text, or by bytes where there is none. */
static void print_place(const char *path, uint32_t start, uint32_t end) {
    if (path == NULL) {
        printf("%u..%u: ", start, end);
        return;
    }
    size_t n = read_file(path, text, sizeof text), line = 1, column = 1;
    for (size_t i = 0; i < n && i < start; i++) {
        column += ((unsigned char)text[i] & 0xc0) != 0x80;      /* a character has one byte that is no later one */
        if (text[i] == '\n') {
            line++;
            column = 1;
        }
    }
    printf("%s:%zu:%zu: ", path, line, column);
}

int main(int count, char **arguments) {
    if (count < 2) {
        fprintf(stderr, "usage: diagnostics FILE [TEXT..]\n");
        return 2;
    }
    size_t length, n = read_file(arguments[1], file, sizeof file);
    uint8_t refusal = sigla_check_length(file, n, work, SIGLA_WORDS, answer, sizeof answer, &length);
    if (refusal != SIGLA_ACCEPTED) {
        printf("%s: refused (%u): %s\n", arguments[1], refusal, sigla_reason(refusal));
        return 3;
    }
    size_t at = 0, found = 0;
    uint32_t query = 0;
    struct sigla_line line;
    while (sigla_next_line(answer, length, &at, &line) > 0) {
        const char *path = query < (uint32_t)count - 2 ? arguments[2 + query] : NULL;
        switch (line.kind) {
        case SIGLA_QUERY_NUMBER:
            query = line.number;
            break;
        case SIGLA_DIAGNOSTIC:
            found++;
            print_place(path, line.start, line.end);
            sigla_text(&line, words, sizeof words);
            printf("%s: ", words);
            break;
        case SIGLA_MESSAGE:
            sigla_text(&line, words, sizeof words);
            printf("%s\n", words);
            break;
        case SIGLA_WRITTEN_ONCE:
            print_place(path, line.start, line.end);
            printf("written once\n");
            break;
        default:
            break;
        }
    }
    return found > 0;
}
