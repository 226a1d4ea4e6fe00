/* The builder's limits, handles, memory and slices: each is told just where the library would refuse, and what is built is accepted. Prints how
 * many things held; ends by an assertion where one does not. */
#undef NDEBUG
#include <assert.h>
#include <stdio.h>
#include <stdlib.h>

#include "sigla.h"
#include "sigla_form.h"

static struct sigla_form form, other;
static uint8_t memory[1 << 20], other_memory[4096], file[1 << 20];
static uint32_t work[SIGLA_WORDS];
static uint8_t answer[SIGLA_BYTES];
static char text[600];
static size_t length, held;
static const struct sigla_form_span AT = {0, 0};

#define HOLDS(what) (assert(what), held++)
#define IS(call, error) HOLDS((call) == (error))
#define DONE(call) IS(call, SIGLA_FORM_OK)

static void begin(void) {
    sigla_form_begin(&form, 2, 32, memory, sizeof memory);
}

/* A query of an integer. */
static void ask(struct sigla_form *of) {
    struct sigla_form_node head;
    DONE(sigla_form_query(of));
    DONE(sigla_form_integer(of, AT, &head));
    DONE(sigla_form_ask(of, head, NULL, 0));
}

/* What the library says of the file, and of it with a line more before the first line of a later kind. */
static uint8_t outcome(const char *line) {
    size_t at = 0, more = line == NULL ? 0 : strlen(line);
    DONE(sigla_form_write(&form, file, sizeof file, &length));
    while (line != NULL && at < length && memcmp(file + at, line, 2) <= 0)
        at = (size_t)((uint8_t *)memchr(file + at, '\n', length - at) - file) + 1;
    memmove(file + at + more, file + at, length - at);
    memcpy(file + at, line == NULL ? "" : line, more);
    return sigla_check(file, length + more, work, SIGLA_WORDS, answer, sizeof answer);
}

static const char *name(unsigned i) {
    snprintf(text, sizeof text, "n%u", i);
    return text;
}

static void limits_of_the_schema(void) {
    uint16_t number;
    struct sigla_form_type type, none;
    struct sigla_form_predicate predicate;
    begin();
    for (unsigned i = 0; i < SIGLA_NAMES; i++)
        HOLDS(sigla_form_name(&form, name(i), &number) == SIGLA_FORM_OK && number == i);
    HOLDS(sigla_form_name(&form, "n7", &number) == SIGLA_FORM_OK && number == 7);
    IS(sigla_form_name(&form, "more", &number), SIGLA_FORM_NAMES);
    HOLDS(form.error == SIGLA_FORM_NAMES);
    ask(&form);
    HOLDS(outcome(NULL) == SIGLA_ACCEPTED && outcome("026d6f7265\n") == sigla_form_refusal(SIGLA_FORM_NAMES));

    begin();
    for (unsigned i = 0; i < SIGLA_TYPES; i++)
        HOLDS(sigla_form_type_integer(&form, &type) == SIGLA_FORM_OK && type.number == i);
    IS(sigla_form_type_string(&form, &none), SIGLA_FORM_TYPES);
    for (unsigned i = 0; i < SIGLA_PREDICATES; i++)
        HOLDS(sigla_form_predicate(&form, "p", type, i % 2 == 0 ? &type : NULL, &predicate) == SIGLA_FORM_OK && predicate.number == i);
    IS(sigla_form_predicate(&form, "p", type, NULL, &predicate), SIGLA_FORM_PREDICATES);
    ask(&form);
    HOLDS(outcome(NULL) == SIGLA_ACCEPTED && outcome("0300\n") == sigla_form_refusal(SIGLA_FORM_TYPES));
    HOLDS(outcome("040000000000\n") == sigla_form_refusal(SIGLA_FORM_PREDICATES));

    /* what repeats, and what is empty */
    begin();
    DONE(sigla_form_type_bytes(&form, &type));
    struct sigla_form_field fields[3] = {{"a", type}, {"b", type}, {"a", type}};
    struct sigla_form_alternative parts[2] = {{"a", 7, type}, {"b", 7, type}};
    IS(sigla_form_type_record(&form, fields, 3, &none), SIGLA_FORM_REPEATED_FIELD);
    HOLDS(none.form == NULL);
    DONE(sigla_form_type_record(&form, fields, 2, &none));
    DONE(sigla_form_type_record(&form, NULL, 0, &none));
    IS(sigla_form_type_union(&form, parts, 2, &none), SIGLA_FORM_REPEATED_DISCRIMINANT);
    parts[1].discriminant = UINT32_MAX;
    parts[1].name = "a";
    DONE(sigla_form_type_union(&form, parts, 2, &none));
    ask(&form);
    HOLDS(outcome(NULL) == SIGLA_ACCEPTED);
    HOLDS(outcome("03040000000000000000\n") == sigla_form_refusal(SIGLA_FORM_REPEATED_FIELD));
}

static void limits_of_queries(void) {
    struct sigla_form_node last, more;
    uint16_t number;
    begin();
    DONE(sigla_form_query(&form));
    DONE(sigla_form_integer(&form, AT, &last));
    for (unsigned i = 1; i < SIGLA_NODES; i++)
        HOLDS(sigla_form_arithmetic(&form, AT, &last, 1, &last) == SIGLA_FORM_OK && last.number == i);
    IS(sigla_form_integer(&form, AT, &more), SIGLA_FORM_NODES);
    DONE(sigla_form_ask(&form, last, NULL, 0));
    HOLDS(outcome(NULL) == SIGLA_ACCEPTED && outcome("05000000000000000000\n") == sigla_form_refusal(SIGLA_FORM_NODES));

    begin();
    for (unsigned i = 0; i < SIGLA_QUERIES; i++)
        ask(&form);
    IS(sigla_form_query(&form), SIGLA_FORM_QUERIES);
    IS(sigla_form_integer(&form, AT, &more), SIGLA_FORM_NOT_BEGUN);
    IS(sigla_form_ask(&form, more, NULL, 0), SIGLA_FORM_NOT_BEGUN);
    HOLDS(outcome(NULL) == SIGLA_ACCEPTED);
    const char *query = "05000000000000000000\n060000\n";
    memcpy(file + length, query, strlen(query));
    HOLDS(sigla_check(file, length + strlen(query), work, SIGLA_WORDS, answer, sizeof answer) == sigla_form_refusal(SIGLA_FORM_QUERIES));

    /* frames: 511 bytes of a text fit, 125 fields of a record, and 126 do not */
    begin();
    memset(text, 'x', 512);
    text[512] = 0;
    IS(sigla_form_name(&form, text, &number), SIGLA_FORM_FRAME);
    text[511] = 0;
    DONE(sigla_form_name(&form, text, &number));
    struct sigla_form_entry entries[126];
    for (unsigned count = 125; count <= 126; count++) {
        DONE(sigla_form_query(&form));
        for (unsigned i = 0; i < count; i++) {
            entries[i].name = "a";
            DONE(sigla_form_wildcard(&form, AT, &entries[i].node));
        }
        IS(sigla_form_record(&form, AT, entries, count, &more), count == 125 ? SIGLA_FORM_OK : SIGLA_FORM_FRAME);
    }
    /* none of its nodes is used up by what failed */
    DONE(sigla_form_record(&form, AT, entries, 120, &more));
    DONE(sigla_form_ask(&form, more, NULL, 0));
    HOLDS(outcome(NULL) == SIGLA_ACCEPTED);

    /* a file of 65,536 bytes, and of one byte more */
    for (size_t wanted = SIGLA_FILE_BYTES; wanted <= SIGLA_FILE_BYTES + 1; wanted++) {
        begin();
        for (unsigned i = 0; i < 63; i++) {
            snprintf(text, sizeof text, "%0511u", i);
            DONE(sigla_form_name(&form, text, &number));
        }
        ask(&form);
        DONE(sigla_form_write(&form, file, sizeof file, &length));
        if ((wanted - length) % 2 == 0) {                   /* a line has an odd number of bytes */
            DONE(sigla_form_name(&form, "", &number));
            length += 3;
        }
        snprintf(text, sizeof text, "%0*u", (int)(wanted - length - 3) / 2, 1);
        DONE(sigla_form_name(&form, text, &number));
        IS(sigla_form_write(&form, file, sizeof file, &length), wanted == SIGLA_FILE_BYTES ? SIGLA_FORM_OK : SIGLA_FORM_FILE);
        HOLDS(length == wanted);
        HOLDS(sigla_check(file, length, work, SIGLA_WORDS, answer, sizeof answer) ==
              (wanted == SIGLA_FILE_BYTES ? SIGLA_ACCEPTED : sigla_form_refusal(SIGLA_FORM_FILE)));
    }
}

static void handles_of_others(void) {
    struct sigla_form_type type, foreign;
    struct sigla_form_predicate p, q;
    struct sigla_form_node one, two, made;
    begin();
    sigla_form_begin(&other, 2, 32, other_memory, sizeof other_memory);
    DONE(sigla_form_type_integer(&form, &type));
    DONE(sigla_form_type_integer(&other, &foreign));
    struct sigla_form_field field = {"a", foreign};
    struct sigla_form_alternative part = {"a", 0, foreign};
    IS(sigla_form_type_record(&form, &field, 1, &type), SIGLA_FORM_OTHER_TYPE);
    field.type = type;                                      /* of a call that failed */
    IS(sigla_form_type_record(&form, &field, 1, &type), SIGLA_FORM_OTHER_TYPE);
    IS(sigla_form_type_union(&form, &part, 1, &type), SIGLA_FORM_OTHER_TYPE);
    IS(sigla_form_predicate(&form, "p", foreign, NULL, &p), SIGLA_FORM_OTHER_TYPE);
    DONE(sigla_form_type_integer(&form, &type));
    IS(sigla_form_predicate(&form, "p", type, &foreign, &p), SIGLA_FORM_OTHER_TYPE);
    DONE(sigla_form_predicate(&other, "p", foreign, NULL, &q));
    IS(sigla_form_type_fact(&form, q, &type), SIGLA_FORM_OTHER_PREDICATE);
    DONE(sigla_form_type_integer(&form, &type));
    DONE(sigla_form_declare(&form, "p", &p));
    HOLDS(p.number == q.number);
    IS(sigla_form_define(&form, q, type, NULL), SIGLA_FORM_OTHER_PREDICATE);
    IS(sigla_form_define(&form, sigla_form_absent(0), type, NULL), SIGLA_FORM_OTHER_PREDICATE);
    DONE(sigla_form_define(&form, p, type, NULL));
    IS(sigla_form_define(&form, p, type, NULL), SIGLA_FORM_OTHER_PREDICATE);

    DONE(sigla_form_query(&other));
    DONE(sigla_form_integer(&other, AT, &made));
    DONE(sigla_form_query(&form));
    DONE(sigla_form_integer(&form, AT, &one));
    IS(sigla_form_value(&form, AT, made, &two), SIGLA_FORM_OTHER_NODE);
    IS(sigla_form_value(&form, AT, two, &two), SIGLA_FORM_OTHER_NODE);
    IS(sigla_form_fact(&form, AT, q, one, &two), SIGLA_FORM_OTHER_PREDICATE);
    struct sigla_form_node twice[2] = {one, one};
    IS(sigla_form_either(&form, AT, twice, 2, &two), SIGLA_FORM_OTHER_NODE);
    DONE(sigla_form_fact(&form, AT, sigla_form_absent(UINT32_MAX), one, &two));
    IS(sigla_form_value(&form, AT, one, &made), SIGLA_FORM_OTHER_NODE);
    struct sigla_form_statement same = sigla_form_two(SIGLA_BINDS, two, two);
    IS(sigla_form_ask(&form, two, &same, 1), SIGLA_FORM_OTHER_NODE);

    /* a query that is given up: its nodes are no others', its names stay, and what else was made meanwhile */
    DONE(sigla_form_variable(&form, AT, "kept", &made));
    DONE(sigla_form_type_string(&form, &type));
    made = one;
    DONE(sigla_form_query(&form));
    DONE(sigla_form_integer(&form, AT, &one));
    HOLDS(made.number == one.number);
    IS(sigla_form_ask(&form, made, NULL, 0), SIGLA_FORM_OTHER_NODE);
    IS(sigla_form_ask(&form, two, NULL, 0), SIGLA_FORM_OTHER_NODE);
    uint16_t number;
    HOLDS(sigla_form_name(&form, "kept", &number) == SIGLA_FORM_OK && number == 2);
    HOLDS(sigla_form_name(&form, "later", &number) == SIGLA_FORM_OK && number == 3);
    DONE(sigla_form_ask(&form, one, NULL, 0));
    HOLDS(outcome(NULL) == SIGLA_ACCEPTED);
    const char *all = "01020020\n0261\n0270\n026b657074\n026c61746572\n0300\n0300\n0300\n0301\n040001000200\n05000000000000000000\n060000\n";
    HOLDS(length == strlen(all) && memcmp(file, all, length) == 0);

    /* one that has not asked yet is left out */
    DONE(sigla_form_query(&form));
    DONE(sigla_form_integer(&form, AT, &one));
    DONE(sigla_form_write(&form, file, sizeof file, &length));
    HOLDS(length == strlen(all) && memcmp(file, all, length) == 0);

    /* a predicate that refers to itself, and one that is never defined */
    begin();
    struct sigla_form_type next;
    IS(sigla_form_write(&form, file, sizeof file, &length), SIGLA_FORM_NO_QUERY);
    DONE(sigla_form_declare(&form, "page", &p));
    DONE(sigla_form_type_fact(&form, p, &next));
    ask(&form);
    IS(sigla_form_write(&form, file, sizeof file, &length), SIGLA_FORM_UNDEFINED);
    DONE(sigla_form_define(&form, p, next, &next));
    HOLDS(outcome(NULL) == SIGLA_ACCEPTED);
}

static void texts(void) {
    uint16_t number;
    const char *good[] = {"", "\x7f", "\xc2\x80", "\xdf\xbf", "\xe0\xa0\x80", "\xed\x9f\xbf", "\xee\x80\x80", "\xf0\x90\x80\x80", "\xf4\x8f\xbf\xbf"};
    const char *broken[] = {"\x80", "\xc1\xbf", "\xc2", "\xc2x", "\xe0\x9f\xbf", "\xed\xa0\x80", "\xed\xbf\xbf", "\xe2\x82", "\xf0\x8f\xbf\xbf",
                            "\xf4\x90\x80\x80", "\xf5\x80\x80\x80", "\xff", "a\xe2\x82z"};
    begin();
    for (unsigned i = 0; i < sizeof good / sizeof *good; i++)
        HOLDS(sigla_form_name(&form, good[i], &number) == SIGLA_FORM_OK && number == i);
    for (unsigned i = 0; i < sizeof broken / sizeof *broken; i++)
        IS(sigla_form_name(&form, broken[i], &number), SIGLA_FORM_BROKEN_TEXT);
    ask(&form);
    HOLDS(outcome(NULL) == SIGLA_ACCEPTED && outcome("02ff\n") == sigla_form_refusal(SIGLA_FORM_BROKEN_TEXT));
}

/* x where sample x */
static enum sigla_form_error small(void *lent, size_t room) {
    struct sigla_form_type type;
    struct sigla_form_predicate sample;
    struct sigla_form_node x, fact, head;
    sigla_form_begin(&form, 2, 32, lent, room);
    sigla_form_type_string(&form, &type);
    sigla_form_predicate(&form, "sample", type, NULL, &sample);
    sigla_form_query(&form);
    sigla_form_variable(&form, sigla_form_span(15, 16), "x", &x);
    sigla_form_fact(&form, sigla_form_span(8, 16), sample, x, &fact);
    sigla_form_variable(&form, sigla_form_span(0, 1), "x", &head);
    struct sigla_form_statement holds = sigla_form_one(SIGLA_HOLDS, fact);
    sigla_form_ask(&form, head, &holds, 1);
    return form.error;
}

static void memory_and_slices(void) {
    size_t needed = 0;
    uint8_t whole[256];
    DONE(small(memory, sizeof memory));
    needed = form.used;
    DONE(sigla_form_write(&form, whole, sizeof whole, &length));
    HOLDS(sigla_check(whole, length, work, SIGLA_WORDS, answer, sizeof answer) == SIGLA_ACCEPTED && needed < length);
    for (size_t room = 0; room <= needed + 1; room++) {
        uint8_t *lent = malloc(room + (room == 0));
        IS(small(lent, room), room < needed ? SIGLA_FORM_NO_MEMORY : SIGLA_FORM_OK);
        free(lent);
    }
    for (size_t room = 0, all = length; room <= all + 1; room++) {
        uint8_t *to = malloc(room + (room == 0));
        DONE(small(memory, sizeof memory));
        IS(sigla_form_write(&form, to, room, &length), room < all ? SIGLA_FORM_NO_ROOM : SIGLA_FORM_OK);
        HOLDS(length == all && form.error == SIGLA_FORM_OK && (room < all || memcmp(to, whole, all) == 0));
        free(to);
    }
}

int main(void) {
    limits_of_the_schema();
    limits_of_queries();
    handles_of_others();
    texts();
    memory_and_slices();
    for (int error = SIGLA_FORM_OK; error <= SIGLA_FORM_NO_ROOM + 1; error++)
        HOLDS(strlen(sigla_form_reason((enum sigla_form_error)error)) > 0);
    HOLDS(sigla_form_refusal(SIGLA_FORM_NO_QUERY) == SIGLA_MISPLACED_KIND && sigla_form_refusal(SIGLA_FORM_UNDEFINED) == SIGLA_BAD_REFERENCE);
    HOLDS(sigla_form_refusal(SIGLA_FORM_NO_MEMORY) == SIGLA_ACCEPTED && sigla_form_refusal(SIGLA_FORM_FRAME) == SIGLA_MALFORMED_LINE);
    HOLDS(sigla_version() == SIGLA_VERSION_NUMBER);
    printf("%zu held\n", held);
    return 0;
}
