/* Makes the calls that standard input holds with the builder of sigla_form.h, as bindings/python/calls.py describes them: prints a line for each
 * that fails, and then the file or the limit that stands against it. `calls BYTES` lends that much memory. */
#include <stdio.h>
#include <stdlib.h>
#include <string.h>

#include "sigla_form.h"

#define MANY 1024               /* of what a call may name, more than fit in a frame */

static const char *const KIND[] = {"ok", "names", "types", "predicates", "nodes", "queries", "frame", "file", "repeated_field", "repeated_discriminant",
                                   "other_type", "other_predicate", "other_node", "undefined", "no_query", "broken_text", "not_begun", "no_memory",
                                   "no_room"};

static struct sigla_form form;
static uint8_t file[SIGLA_FILE_BYTES];
static char line[1 << 20], texts[1 << 19];
static size_t text_end;
static struct sigla_form_type types[SIGLA_TYPES];
static struct sigla_form_predicate predicates[SIGLA_PREDICATES];
static struct sigla_form_node nodes[SIGLA_NODES];
static size_t type_count, predicate_count, node_count;

/* The next word of the line, or of a word with colons. */
static char *next(char **rest, const char *between) {
    char *word = *rest + strspn(*rest, between);
    if (*word == 0)
        return NULL;
    *rest = word + strcspn(word, between);
    if (**rest != 0)
        *(*rest)++ = 0;
    return word;
}

static uint32_t number(char **rest, const char *between) {
    char *word = next(rest, between);
    return word == NULL ? 0 : (uint32_t)strtoul(word, NULL, 10);
}

static const char *text(char **rest, const char *between) {
    const char *word = next(rest, between);
    char *first = texts + text_end;
    unsigned byte;
    for (word++; sscanf(word, "%2x", &byte) == 1; word += 2)
        texts[text_end++] = (char)byte;
    texts[text_end++] = 0;
    return first;
}

static struct sigla_form_predicate predicate(char **rest) {
    char *word = next(rest, " ");
    uint32_t n = (uint32_t)strtoul(word + 1, NULL, 10);
    return word[0] == 'a' ? sigla_form_absent(n) : predicates[n];
}

static struct sigla_form_node node(char **rest, const char *between) {
    return nodes[number(rest, between)];
}

static size_t all_nodes(char **rest, struct sigla_form_node *found) {
    size_t count = 0;
    char *word;
    while ((word = next(rest, " ")) != NULL)
        found[count++] = nodes[strtoul(word, NULL, 10)];
    return count;
}

static size_t all_statements(char **rest, struct sigla_form_statement *found) {
    size_t count = 0;
    char *word;
    while ((word = next(rest, " ")) != NULL) {
        enum sigla_statement kind = (enum sigla_statement)number(&word, ":");
        struct sigla_form_node left = node(&word, ":");
        found[count++] = kind == SIGLA_HOLDS || kind == SIGLA_DENIES ? sigla_form_one(kind, left) : sigla_form_two(kind, left, node(&word, ":"));
    }
    return count;
}

static enum sigla_form_error make_type(char **rest, struct sigla_form_type *type) {
    static struct sigla_form_field fields[MANY];
    static struct sigla_form_alternative alternatives[MANY];
    const char *shape = next(rest, " ");
    size_t count = 0;
    char *word;
    if (strcmp(shape, "integer") == 0)
        return sigla_form_type_integer(&form, type);
    if (strcmp(shape, "string") == 0)
        return sigla_form_type_string(&form, type);
    if (strcmp(shape, "bytes") == 0)
        return sigla_form_type_bytes(&form, type);
    if (strcmp(shape, "fact") == 0)
        return sigla_form_type_fact(&form, predicate(rest), type);
    for (; (word = next(rest, " ")) != NULL; count++) {
        fields[count].name = alternatives[count].name = text(&word, ":");
        if (strcmp(shape, "union") == 0)
            alternatives[count].discriminant = number(&word, ":");
        fields[count].type = alternatives[count].type = types[number(&word, ":")];
    }
    return strcmp(shape, "record") == 0 ? sigla_form_type_record(&form, fields, count, type) : sigla_form_type_union(&form, alternatives, count, type);
}

static enum sigla_form_error make_node(char **rest, struct sigla_form_node *made) {
    static struct sigla_form_entry entries[MANY];
    static struct sigla_form_node of[MANY];
    static struct sigla_form_statement statements[MANY];
    uint32_t start = number(rest, " "), end = number(rest, " ");
    struct sigla_form_span span = sigla_form_span(start, end);
    const char *name;
    char *word;
    size_t count = 0;
    struct sigla_form_predicate p;
    switch (number(rest, " ")) {
    case SIGLA_NODE_INTEGER: return sigla_form_integer(&form, span, made);
    case SIGLA_NODE_STRING: return sigla_form_string(&form, span, made);
    case SIGLA_NODE_BYTES: return sigla_form_bytes(&form, span, made);
    case SIGLA_NODE_VARIABLE: return sigla_form_variable(&form, span, text(rest, " "), made);
    case SIGLA_NODE_WILDCARD: return sigla_form_wildcard(&form, span, made);
    case SIGLA_NODE_NEVER: return sigla_form_never(&form, span, made);
    case SIGLA_NODE_PREFIX: return sigla_form_prefix(&form, span, text(rest, " "), made);
    case SIGLA_NODE_FUZZY:
        name = text(rest, " ");
        return sigla_form_fuzzy(&form, span, name, (uint8_t)number(rest, " "), made);
    case SIGLA_NODE_RECORD:
        for (; (word = next(rest, " ")) != NULL; count++) {
            entries[count].name = text(&word, ":");
            entries[count].node = node(&word, ":");
        }
        return sigla_form_record(&form, span, entries, count, made);
    case SIGLA_NODE_FIELD:
        name = text(rest, " ");
        return sigla_form_field(&form, span, name, node(rest, " "), made);
    case SIGLA_NODE_VALUE: return sigla_form_value(&form, span, node(rest, " "), made);
    case SIGLA_NODE_EITHER:
        count = all_nodes(rest, of);
        return sigla_form_either(&form, span, of, count, made);
    case SIGLA_NODE_SUBQUERY:
        of[0] = node(rest, " ");
        count = all_statements(rest, statements);
        return sigla_form_subquery(&form, span, of[0], statements, count, made);
    case SIGLA_NODE_FACT:
        p = predicate(rest);
        return sigla_form_fact(&form, span, p, node(rest, " "), made);
    case SIGLA_NODE_ARITHMETIC:
        count = all_nodes(rest, of);
        return sigla_form_arithmetic(&form, span, of, count, made);
    case SIGLA_NODE_UNREAD: return sigla_form_unread(&form, span, made);
    default:
        name = text(rest, " ");
        return sigla_form_alternative(&form, span, name, node(rest, " "), made);
    }
}

static enum sigla_form_error make(const char *word, char **rest) {
    static struct sigla_form_statement statements[MANY];
    enum sigla_form_error error;
    uint16_t unused;
    if (strcmp(word, "name") == 0)
        return sigla_form_name(&form, text(rest, " "), &unused);
    if (strcmp(word, "query") == 0) {
        node_count = 0;
        return sigla_form_query(&form);
    }
    if (strcmp(word, "ask") == 0) {
        struct sigla_form_node head = node(rest, " ");
        size_t count = all_statements(rest, statements);
        return sigla_form_ask(&form, head, statements, count);
    }
    if (strcmp(word, "type") == 0) {
        struct sigla_form_type type;
        error = make_type(rest, &type);
        if (error == SIGLA_FORM_OK)
            types[type_count++] = type;
        return error;
    }
    if (strcmp(word, "node") == 0) {
        struct sigla_form_node made;
        error = make_node(rest, &made);
        if (error == SIGLA_FORM_OK)
            nodes[node_count++] = made;
        return error;
    }
    struct sigla_form_predicate made = {NULL, 0, 0};
    const char *name = NULL;
    if (strcmp(word, "define") == 0)
        made = predicate(rest);
    else
        name = text(rest, " ");
    if (strcmp(word, "declare") == 0) {
        error = sigla_form_declare(&form, name, &made);
    } else {
        struct sigla_form_type key = types[number(rest, " ")], value = {NULL, 0};
        word = next(rest, " ");
        if (word != NULL)
            value = types[strtoul(word, NULL, 10)];
        if (name == NULL)
            return sigla_form_define(&form, made, key, word == NULL ? NULL : &value);
        error = sigla_form_predicate(&form, name, key, word == NULL ? NULL : &value, &made);
    }
    if (error == SIGLA_FORM_OK)
        predicates[predicate_count++] = made;
    return error;
}

int main(int count, char **arguments) {
    size_t room = count == 2 ? strtoul(arguments[1], NULL, 10) : SIGLA_FORM_MEMORY, length;
    uint8_t *memory = malloc(room + (room == 0));
    if (memory == NULL)
        return 2;
    for (unsigned at = 1; fgets(line, sizeof line, stdin) != NULL; at++) {
        line[strcspn(line, "\n")] = 0;
        text_end = 0;
        char *rest = line;
        const char *word = next(&rest, " ");
        enum sigla_form_error error = SIGLA_FORM_OK;
        if (strcmp(word, "limits") == 0) {
            uint32_t distance = number(&rest, " "), characters = number(&rest, " ");
            sigla_form_begin(&form, (uint8_t)distance, (uint16_t)characters, memory, room);
        } else if (strcmp(word, "file") == 0) {
            error = sigla_form_write(&form, file, sizeof file, &length);
            if (error == SIGLA_FORM_OK)
                fwrite(file, 1, length, stdout);
        } else {
            error = make(word, &rest);
        }
        if (error != SIGLA_FORM_OK)
            printf("%u %s\n", at, KIND[error]);
    }
    free(memory);
    return 0;
}
