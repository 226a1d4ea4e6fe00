/* Builds a file in C or C++: names, a schema, queries. Tested, not proved; what it makes is held byte for byte against the builders in Rust and
 * Python (bindings/test).
 *
 *     static struct sigla_form form;
 *     static uint8_t memory[SIGLA_FORM_MEMORY], file[SIGLA_FILE_BYTES];
 *     struct sigla_form_type text;
 *     struct sigla_form_predicate sample;
 *     struct sigla_form_node x, fact, head;
 *     struct sigla_form_statement holds;
 *     size_t length;
 *
 *     sigla_form_begin(&form, 2, 32, memory, sizeof memory);
 *     sigla_form_type_string(&form, &text);
 *     sigla_form_predicate(&form, "sample", text, NULL, &sample);
 *     sigla_form_query(&form);                                         // x where sample x
 *     sigla_form_variable(&form, sigla_form_span(15, 16), "x", &x);
 *     sigla_form_fact(&form, sigla_form_span(8, 16), sample, x, &fact);
 *     sigla_form_variable(&form, sigla_form_span(0, 1), "x", &head);
 *     holds = sigla_form_one(SIGLA_HOLDS, fact);
 *     sigla_form_ask(&form, head, &holds, 1);
 *     if (form.error != SIGLA_FORM_OK || sigla_form_write(&form, file, sizeof file, &length) != SIGLA_FORM_OK) ...
 *
 * Memory.    Nothing is allocated. The caller lends bytes to sigla_form_begin, keeps them as long as the form is used, and may then do with
 *            them what it likes; nothing has to be freed. SIGLA_FORM_MEMORY bytes suffice for every file that is not too long.
 * Texts.     Names are texts that end with a zero byte, in UTF-8, and are numbered here, each once, in the order in which they first come.
 * Handles.   Types, predicates and nodes are handed out as small structs, to be passed by value. Each is of the form that made it, a node also
 *            of the query; a node is named once. What is another's is told. A call that fails hands out a handle that no call takes.
 * Errors.    Each call that can fail says why. A call that failed has added no type, predicate, node or query, though perhaps names, and the
 *            form can be used on. form.error keeps the first error since sigla_form_begin, so that it can be asked once, before
 *            sigla_form_write, which leaves it as it is.
 * Threads.   A form is its caller's: two threads may build two forms, and not one. It may not be moved or copied between calls. */
#ifndef SIGLA_FORM_H
#define SIGLA_FORM_H

#include <stddef.h>
#include <stdint.h>
#include <string.h>

#include "sigla.h"

#ifdef __cplusplus
extern "C" {
#endif

#define SIGLA_FORM_MEMORY 65536 /* bytes: a frame takes two more than its own there, and in the file one more than twice its own */

/* Which limit stands in the way, and what else can be wrong. */
enum sigla_form_error {
    SIGLA_FORM_OK = 0,
    SIGLA_FORM_NAMES,
    SIGLA_FORM_TYPES,
    SIGLA_FORM_PREDICATES,
    SIGLA_FORM_NODES,
    SIGLA_FORM_QUERIES,
    SIGLA_FORM_FRAME,
    SIGLA_FORM_FILE,
    SIGLA_FORM_REPEATED_FIELD,
    SIGLA_FORM_REPEATED_DISCRIMINANT,
    SIGLA_FORM_OTHER_TYPE,
    SIGLA_FORM_OTHER_PREDICATE,
    SIGLA_FORM_OTHER_NODE,
    SIGLA_FORM_UNDEFINED,
    SIGLA_FORM_NO_QUERY,
    SIGLA_FORM_BROKEN_TEXT,
    SIGLA_FORM_NOT_BEGUN,       /* a node or a question outside of a query */
    SIGLA_FORM_NO_MEMORY,       /* the bytes lent to sigla_form_begin are used up */
    SIGLA_FORM_NO_ROOM          /* the slice lent to sigla_form_write is shorter than the file */
};

/* What an error says, in a line. */
static inline const char *sigla_form_reason(enum sigla_form_error error) {
    switch (error) {
    case SIGLA_FORM_OK: return "all is well";
    case SIGLA_FORM_NAMES: return "more than 256 names";
    case SIGLA_FORM_TYPES: return "more than 256 types";
    case SIGLA_FORM_PREDICATES: return "more than 128 predicates";
    case SIGLA_FORM_NODES: return "more than 512 nodes in a query";
    case SIGLA_FORM_QUERIES: return "more than 64 queries";
    case SIGLA_FORM_FRAME: return "a frame of more than 512 bytes";
    case SIGLA_FORM_FILE: return "a file of more than 65536 bytes";
    case SIGLA_FORM_REPEATED_FIELD: return "a record type names a field twice";
    case SIGLA_FORM_REPEATED_DISCRIMINANT: return "a union type has a discriminant twice";
    case SIGLA_FORM_OTHER_TYPE: return "a type of another form";
    case SIGLA_FORM_OTHER_PREDICATE: return "a predicate of another form, or one that is defined already";
    case SIGLA_FORM_OTHER_NODE: return "a node of another query, or one that was named before";
    case SIGLA_FORM_UNDEFINED: return "a predicate is declared and never defined";
    case SIGLA_FORM_NO_QUERY: return "no query";
    case SIGLA_FORM_BROKEN_TEXT: return "a text that is not UTF-8";
    case SIGLA_FORM_NOT_BEGUN: return "no query was begun";
    case SIGLA_FORM_NO_MEMORY: return "the memory of the form is used up";
    case SIGLA_FORM_NO_ROOM: return "the slice is shorter than the file";
    default: return "an error that this version does not know";
    }
}

/* The refusal that a file with such a fault would get; SIGLA_ACCEPTED where there is none. */
static inline enum sigla_refusal sigla_form_refusal(enum sigla_form_error error) {
    switch (error) {
    case SIGLA_FORM_NAMES:
    case SIGLA_FORM_TYPES:
    case SIGLA_FORM_PREDICATES:
    case SIGLA_FORM_NODES: return SIGLA_TOO_MANY;
    case SIGLA_FORM_QUERIES: return SIGLA_TOO_MANY_QUERIES;
    case SIGLA_FORM_FRAME: return SIGLA_MALFORMED_LINE;
    case SIGLA_FORM_FILE: return SIGLA_FILE_TOO_LONG;
    case SIGLA_FORM_REPEATED_FIELD:
    case SIGLA_FORM_REPEATED_DISCRIMINANT: return SIGLA_REPEATED_KEY;
    case SIGLA_FORM_OTHER_TYPE:
    case SIGLA_FORM_OTHER_PREDICATE:
    case SIGLA_FORM_OTHER_NODE:
    case SIGLA_FORM_UNDEFINED: return SIGLA_BAD_REFERENCE;
    case SIGLA_FORM_NO_QUERY: return SIGLA_MISPLACED_KIND;
    case SIGLA_FORM_BROKEN_TEXT: return SIGLA_BROKEN_TEXT;
    default: return SIGLA_ACCEPTED;
    }
}

/* A piece of the query's text, from its start to before its end. */
struct sigla_form_span {
    uint32_t start, end;
};

static inline struct sigla_form_span sigla_form_span(uint32_t start, uint32_t end) {
    struct sigla_form_span span;
    span.start = start;
    span.end = end;
    return span;
}

/* A type of the schema. Handles are for passing on; what is in them is the builder's. */
struct sigla_form_type {
    const struct sigla_form *form;
    uint16_t number;
};

/* A predicate; `number` is its number in the file. */
struct sigla_form_predicate {
    const struct sigla_form *form;
    uint32_t number;
    uint8_t absent;             /* a number that no form need have: sigla_form_absent */
};

/* A node of a query; `number` is the place of its type in the answer. */
struct sigla_form_node {
    const struct sigla_form *form;
    uint32_t query;
    uint16_t number;
};

/* A field of a record type, an alternative of a union type, an entry of a record pattern. */
struct sigla_form_field {
    const char *name;
    struct sigla_form_type type;
};

struct sigla_form_alternative {
    const char *name;
    uint32_t discriminant;
    struct sigla_form_type type;
};

struct sigla_form_entry {
    const char *name;
    struct sigla_form_node node;
};

/* A statement: its kind and its nodes; one alone for SIGLA_HOLDS and SIGLA_DENIES. */
struct sigla_form_statement {
    enum sigla_statement kind;
    struct sigla_form_node left, right;
};

static inline struct sigla_form_statement sigla_form_two(enum sigla_statement kind, struct sigla_form_node left, struct sigla_form_node right) {
    struct sigla_form_statement statement;
    statement.kind = kind;
    statement.left = left;
    statement.right = right;
    return statement;
}

static inline struct sigla_form_statement sigla_form_one(enum sigla_statement kind, struct sigla_form_node node) {
    return sigla_form_two(kind, node, node);
}

/* A file under construction. Callers read `error` alone. */
struct sigla_form {
    enum sigla_form_error error;
    uint8_t *memory;            /* frames in the order in which they were made, each after its length in 2 bytes */
    size_t room, used;
    size_t query_from;          /* where the frames of the open query begin */
    uint32_t query;             /* how many queries were begun: nodes are known by it */
    uint8_t open;
    uint8_t distance;
    uint16_t characters;
    uint16_t names, types, predicates, nodes, queries;
    uint32_t name_at[SIGLA_NAMES];
    struct {
        uint16_t name, key, value;
        uint8_t defined, has_value;
    } predicate[SIGLA_PREDICATES];
    uint8_t named[SIGLA_NODES / 8];     /* a bit for each node of the open query: whether it was named */
};

/* A form with nothing in it. The limits are the largest distance of a fuzzy term and its largest length in characters. */
static inline void sigla_form_begin(struct sigla_form *form, uint8_t distance, uint16_t characters, void *memory, size_t memory_len) {
    memset(form, 0, sizeof *form);
    form->distance = distance;
    form->characters = characters;
    form->memory = (uint8_t *)memory;
    form->room = memory_len;
}

/* ---- What the calls below are made of. Their names end with an underline, and they are no part of the interface. */

/* A frame under construction: past SIGLA_FRAME_BYTES its bytes are only counted. */
struct sigla_form_frame_ {
    size_t count;
    uint8_t bytes[SIGLA_FRAME_BYTES];
    uint8_t named[SIGLA_NODES / 8];     /* the form's, with what this frame names */
};

static inline enum sigla_form_error sigla_form_tell_(struct sigla_form *form, enum sigla_form_error error) {
    if (form->error == SIGLA_FORM_OK)
        form->error = error;
    return error;
}

static inline void sigla_form_put_(struct sigla_form_frame_ *frame, uint32_t number, size_t bytes) {
    while (bytes > 0) {
        bytes--;
        if (frame->count < SIGLA_FRAME_BYTES)
            frame->bytes[frame->count] = (uint8_t)(number >> (8 * bytes));
        frame->count++;
    }
}

/* A frame's bytes after its length; a frame too long has been told before. */
static inline enum sigla_form_error sigla_form_keep_(struct sigla_form *form, const uint8_t *bytes, size_t count) {
    if (count > SIGLA_FRAME_BYTES)
        return SIGLA_FORM_FRAME;
    if (form->room - form->used < count + 2)
        return SIGLA_FORM_NO_MEMORY;
    uint8_t *to = form->memory + form->used;
    to[0] = (uint8_t)(count >> 8);
    to[1] = (uint8_t)count;
    memcpy(to + 2, bytes, count);
    form->used += count + 2;
    return SIGLA_FORM_OK;
}

static inline size_t sigla_form_count_(const uint8_t *kept) {
    return (size_t)kept[0] << 8 | kept[1];
}

/* UTF-8 as RFC 3629 has it: shortest forms, no halves of pairs, up to 10ffff. */
static inline int sigla_form_is_text_(const uint8_t *text, size_t count) {
    for (size_t i = 0; i < count;) {
        uint8_t first = text[i];
        size_t more = first < 0x80 ? 0 : first < 0xc2 ? 4 : first < 0xe0 ? 1 : first < 0xf0 ? 2 : first < 0xf5 ? 3 : 4;
        if (more == 4 || count - i <= more)
            return 0;
        for (size_t k = 1; k <= more; k++)
            if ((text[i + k] & 0xc0) != 0x80)
                return 0;
        if ((first == 0xe0 && text[i + 1] < 0xa0) || (first == 0xed && text[i + 1] > 0x9f) || (first == 0xf0 && text[i + 1] < 0x90) ||
            (first == 0xf4 && text[i + 1] > 0x8f))
            return 0;
        i += more + 1;
    }
    return 1;
}

static inline enum sigla_form_error sigla_form_number_of_(struct sigla_form *form, const char *name, uint16_t *number) {
    size_t count = strlen(name);
    *number = 0;
    for (uint16_t i = 0; i < form->names; i++) {
        const uint8_t *kept = form->memory + form->name_at[i];
        if (sigla_form_count_(kept) == count + 1 && memcmp(kept + 3, name, count) == 0) {
            *number = i;
            return SIGLA_FORM_OK;
        }
    }
    if (!sigla_form_is_text_((const uint8_t *)name, count))
        return SIGLA_FORM_BROKEN_TEXT;
    if (form->names == SIGLA_NAMES)
        return SIGLA_FORM_NAMES;
    if (count + 1 > SIGLA_FRAME_BYTES)
        return SIGLA_FORM_FRAME;
    uint8_t frame[SIGLA_FRAME_BYTES];
    frame[0] = SIGLA_NAME;
    memcpy(frame + 1, name, count);
    size_t at = form->used;
    enum sigla_form_error error = sigla_form_keep_(form, frame, count + 1);
    if (error == SIGLA_FORM_OK) {
        *number = form->names;
        form->name_at[form->names++] = (uint32_t)at;
    }
    return error;
}

static inline enum sigla_form_error sigla_form_put_name_(struct sigla_form *form, struct sigla_form_frame_ *frame, const char *name) {
    uint16_t number;
    enum sigla_form_error error = sigla_form_number_of_(form, name, &number);
    sigla_form_put_(frame, number, 2);
    return error;
}

static inline enum sigla_form_error sigla_form_put_type_(const struct sigla_form *form, struct sigla_form_frame_ *frame, struct sigla_form_type type) {
    sigla_form_put_(frame, type.number, 2);
    return type.form == form && type.number < form->types ? SIGLA_FORM_OK : SIGLA_FORM_OTHER_TYPE;
}

static inline enum sigla_form_error sigla_form_put_predicate_(const struct sigla_form *form, struct sigla_form_frame_ *frame,
                                                              struct sigla_form_predicate predicate) {
    sigla_form_put_(frame, predicate.number, 4);
    return predicate.absent || (predicate.form == form && predicate.number < form->predicates) ? SIGLA_FORM_OK : SIGLA_FORM_OTHER_PREDICATE;
}

static inline enum sigla_form_error sigla_form_put_node_(const struct sigla_form *form, struct sigla_form_frame_ *frame, struct sigla_form_node node) {
    sigla_form_put_(frame, node.number, 2);
    if (node.form != form || !form->open || node.query != form->query || node.number >= form->nodes)
        return SIGLA_FORM_OTHER_NODE;
    uint8_t *byte = &frame->named[node.number / 8];
    uint8_t bit = (uint8_t)(1u << node.number % 8);
    if (*byte & bit)
        return SIGLA_FORM_OTHER_NODE;
    *byte |= bit;
    return SIGLA_FORM_OK;
}

static inline enum sigla_form_error sigla_form_put_nodes_(const struct sigla_form *form, struct sigla_form_frame_ *frame,
                                                          const struct sigla_form_node *nodes, size_t count) {
    enum sigla_form_error error = SIGLA_FORM_OK;
    for (size_t i = 0; i < count && error == SIGLA_FORM_OK; i++)
        error = sigla_form_put_node_(form, frame, nodes[i]);
    return error;
}

static inline enum sigla_form_error sigla_form_put_asked_(const struct sigla_form *form, struct sigla_form_frame_ *frame, struct sigla_form_node head,
                                                          const struct sigla_form_statement *statements, size_t count) {
    enum sigla_form_error error = sigla_form_put_node_(form, frame, head);
    for (size_t i = 0; i < count && error == SIGLA_FORM_OK; i++) {
        enum sigla_statement kind = statements[i].kind;
        sigla_form_put_(frame, (uint32_t)kind, 1);
        error = sigla_form_put_node_(form, frame, statements[i].left);
        if (error == SIGLA_FORM_OK && kind != SIGLA_HOLDS && kind != SIGLA_DENIES)
            error = sigla_form_put_node_(form, frame, statements[i].right);
    }
    return error;
}

static inline struct sigla_form_frame_ sigla_form_frame_of_(const struct sigla_form *form, uint8_t kind) {
    struct sigla_form_frame_ frame;
    memcpy(frame.named, form->named, sizeof frame.named);
    frame.count = 0;
    sigla_form_put_(&frame, kind, 1);
    return frame;
}

static inline struct sigla_form_frame_ sigla_form_type_frame_(const struct sigla_form *form, enum sigla_type_shape shape) {
    struct sigla_form_frame_ frame = sigla_form_frame_of_(form, SIGLA_TYPE);
    sigla_form_put_(&frame, (uint32_t)shape, 1);
    return frame;
}

static inline struct sigla_form_frame_ sigla_form_node_frame_(const struct sigla_form *form, struct sigla_form_span span, enum sigla_node_shape shape) {
    struct sigla_form_frame_ frame = sigla_form_frame_of_(form, SIGLA_NODE);
    sigla_form_put_(&frame, span.start, 4);
    sigla_form_put_(&frame, span.end, 4);
    sigla_form_put_(&frame, (uint32_t)shape, 1);
    return frame;
}

static inline enum sigla_form_error sigla_form_add_type_(struct sigla_form *form, const struct sigla_form_frame_ *frame, enum sigla_form_error error,
                                                         struct sigla_form_type *type) {
    type->form = NULL;
    type->number = 0;
    if (error == SIGLA_FORM_OK && form->types == SIGLA_TYPES)
        error = SIGLA_FORM_TYPES;
    if (error == SIGLA_FORM_OK)
        error = sigla_form_keep_(form, frame->bytes, frame->count);
    if (error == SIGLA_FORM_OK) {
        type->form = form;
        type->number = form->types++;
    }
    return sigla_form_tell_(form, error);
}

static inline enum sigla_form_error sigla_form_add_node_(struct sigla_form *form, const struct sigla_form_frame_ *frame, enum sigla_form_error error,
                                                         struct sigla_form_node *node) {
    node->form = NULL;
    node->query = 0;
    node->number = 0;
    if (!form->open)
        error = SIGLA_FORM_NOT_BEGUN;
    if (error == SIGLA_FORM_OK && form->nodes == SIGLA_NODES)
        error = SIGLA_FORM_NODES;
    if (error == SIGLA_FORM_OK)
        error = sigla_form_keep_(form, frame->bytes, frame->count);
    if (error == SIGLA_FORM_OK) {
        memcpy(form->named, frame->named, sizeof form->named);
        node->form = form;
        node->query = form->query;
        node->number = form->nodes++;
    }
    return sigla_form_tell_(form, error);
}

/* Nodes that a text alone, nothing, or nodes follow. */
static inline enum sigla_form_error sigla_form_leaf_(struct sigla_form *form, struct sigla_form_span span, enum sigla_node_shape shape,
                                                     struct sigla_form_node *node) {
    struct sigla_form_frame_ frame = sigla_form_node_frame_(form, span, shape);
    return sigla_form_add_node_(form, &frame, SIGLA_FORM_OK, node);
}

static inline enum sigla_form_error sigla_form_over_(struct sigla_form *form, struct sigla_form_span span, enum sigla_node_shape shape,
                                                     const struct sigla_form_node *nodes, size_t count, struct sigla_form_node *node) {
    struct sigla_form_frame_ frame = sigla_form_node_frame_(form, span, shape);
    enum sigla_form_error error = sigla_form_put_nodes_(form, &frame, nodes, count);
    return sigla_form_add_node_(form, &frame, error, node);
}

static inline enum sigla_form_error sigla_form_called_(struct sigla_form *form, struct sigla_form_span span, enum sigla_node_shape shape, const char *name,
                                                       const struct sigla_form_node *nodes, size_t count, struct sigla_form_node *node) {
    struct sigla_form_frame_ frame = sigla_form_node_frame_(form, span, shape);
    enum sigla_form_error error = sigla_form_put_name_(form, &frame, name);
    if (error == SIGLA_FORM_OK)
        error = sigla_form_put_nodes_(form, &frame, nodes, count);
    return sigla_form_add_node_(form, &frame, error, node);
}

/* Forgets the nodes of the open query, and closes up what else was made since it began. */
static inline void sigla_form_give_up_(struct sigla_form *form) {
    size_t to = form->query_from, name = 0;
    if (!form->open)
        return;
    while (name < form->names && form->name_at[name] < to)
        name++;
    for (size_t from = to; from < form->used;) {
        size_t size = sigla_form_count_(form->memory + from) + 2;
        uint8_t kind = form->memory[from + 2];
        if (kind != SIGLA_NODE) {
            memmove(form->memory + to, form->memory + from, size);
            if (kind == SIGLA_NAME)
                form->name_at[name++] = (uint32_t)to;
            to += size;
        }
        from += size;
    }
    form->used = to;
    form->open = 0;
}

/* A line of the file, where there is room for it; its length in any case. */
static inline void sigla_form_line_(const uint8_t *bytes, size_t count, uint8_t *file, size_t file_len, size_t *length) {
    if (file_len >= *length && file_len - *length >= 2 * count + 1) {
        uint8_t *to = file + *length;
        for (size_t i = 0; i < count; i++) {
            *to++ = (uint8_t)"0123456789abcdef"[bytes[i] >> 4];
            *to++ = (uint8_t)"0123456789abcdef"[bytes[i] & 15];
        }
        *to = '\n';
    }
    *length += 2 * count + 1;
}

/* The lines of the kept frames from one kind to another, without the nodes of the open query. */
static inline void sigla_form_lines_(const struct sigla_form *form, uint8_t first, uint8_t last, uint8_t *file, size_t file_len, size_t *length) {
    for (size_t at = 0; at < form->used;) {
        const uint8_t *kept = form->memory + at;
        size_t count = sigla_form_count_(kept);
        if (kept[2] >= first && kept[2] <= last && !(form->open && at >= form->query_from && kept[2] == SIGLA_NODE))
            sigla_form_line_(kept + 2, count, file, file_len, length);
        at += count + 2;
    }
}

/* ---- Names */

/* The number of a name; a new one is added. The calls below do this with the texts that they are given. */
static inline enum sigla_form_error sigla_form_name(struct sigla_form *form, const char *name, uint16_t *number) {
    return sigla_form_tell_(form, sigla_form_number_of_(form, name, number));
}

/* ---- The schema */

static inline enum sigla_form_error sigla_form_type_integer(struct sigla_form *form, struct sigla_form_type *type) {
    struct sigla_form_frame_ frame = sigla_form_type_frame_(form, SIGLA_TYPE_INTEGER);
    return sigla_form_add_type_(form, &frame, SIGLA_FORM_OK, type);
}

static inline enum sigla_form_error sigla_form_type_string(struct sigla_form *form, struct sigla_form_type *type) {
    struct sigla_form_frame_ frame = sigla_form_type_frame_(form, SIGLA_TYPE_STRING);
    return sigla_form_add_type_(form, &frame, SIGLA_FORM_OK, type);
}

static inline enum sigla_form_error sigla_form_type_bytes(struct sigla_form *form, struct sigla_form_type *type) {
    struct sigla_form_frame_ frame = sigla_form_type_frame_(form, SIGLA_TYPE_BYTES);
    return sigla_form_add_type_(form, &frame, SIGLA_FORM_OK, type);
}

/* A reference to a stored fact of a predicate, which may be one that is declared and not yet defined. */
static inline enum sigla_form_error sigla_form_type_fact(struct sigla_form *form, struct sigla_form_predicate predicate, struct sigla_form_type *type) {
    struct sigla_form_frame_ frame = sigla_form_type_frame_(form, SIGLA_TYPE_FACT);
    return sigla_form_add_type_(form, &frame, sigla_form_put_predicate_(form, &frame, predicate), type);
}

/* A record type; no name twice. */
static inline enum sigla_form_error sigla_form_type_record(struct sigla_form *form, const struct sigla_form_field *fields, size_t count,
                                                           struct sigla_form_type *type) {
    struct sigla_form_frame_ frame = sigla_form_type_frame_(form, SIGLA_TYPE_RECORD);
    enum sigla_form_error error = SIGLA_FORM_OK;
    for (size_t i = 0; i < count && error == SIGLA_FORM_OK; i++) {
        for (size_t k = 0; k < i; k++)
            if (strcmp(fields[k].name, fields[i].name) == 0)
                error = SIGLA_FORM_REPEATED_FIELD;
        if (error == SIGLA_FORM_OK)
            error = sigla_form_put_name_(form, &frame, fields[i].name);
        if (error == SIGLA_FORM_OK)
            error = sigla_form_put_type_(form, &frame, fields[i].type);
    }
    return sigla_form_add_type_(form, &frame, error, type);
}

/* A union type: alternatives with their discriminants, none twice. */
static inline enum sigla_form_error sigla_form_type_union(struct sigla_form *form, const struct sigla_form_alternative *alternatives, size_t count,
                                                          struct sigla_form_type *type) {
    struct sigla_form_frame_ frame = sigla_form_type_frame_(form, SIGLA_TYPE_UNION);
    enum sigla_form_error error = SIGLA_FORM_OK;
    for (size_t i = 0; i < count && error == SIGLA_FORM_OK; i++) {
        for (size_t k = 0; k < i; k++)
            if (alternatives[k].discriminant == alternatives[i].discriminant)
                error = SIGLA_FORM_REPEATED_DISCRIMINANT;
        if (error == SIGLA_FORM_OK)
            error = sigla_form_put_name_(form, &frame, alternatives[i].name);
        sigla_form_put_(&frame, alternatives[i].discriminant, 4);
        if (error == SIGLA_FORM_OK)
            error = sigla_form_put_type_(form, &frame, alternatives[i].type);
    }
    return sigla_form_add_type_(form, &frame, error, type);
}

/* A predicate's number of 32 bits that need not exist in the file: a fact of it is allowed, and its key is not looked at. */
static inline struct sigla_form_predicate sigla_form_absent(uint32_t number) {
    struct sigla_form_predicate predicate;
    predicate.form = NULL;
    predicate.number = number;
    predicate.absent = 1;
    return predicate;
}

/* A predicate whose types come later, by sigla_form_define, since they refer to it. */
static inline enum sigla_form_error sigla_form_declare(struct sigla_form *form, const char *name, struct sigla_form_predicate *predicate) {
    uint16_t number;
    enum sigla_form_error error = sigla_form_number_of_(form, name, &number);
    predicate->form = NULL;
    predicate->number = 0;
    predicate->absent = 0;
    if (error == SIGLA_FORM_OK && form->predicates == SIGLA_PREDICATES)
        error = SIGLA_FORM_PREDICATES;
    if (error == SIGLA_FORM_OK) {
        form->predicate[form->predicates].name = number;
        predicate->form = form;
        predicate->number = form->predicates++;
    }
    return sigla_form_tell_(form, error);
}

/* The types of a predicate that was declared: of its key, and of its value, or NULL where it stores none. */
static inline enum sigla_form_error sigla_form_define(struct sigla_form *form, struct sigla_form_predicate predicate, struct sigla_form_type key,
                                                      const struct sigla_form_type *value) {
    if (key.form != form || key.number >= form->types || (value != NULL && (value->form != form || value->number >= form->types)))
        return sigla_form_tell_(form, SIGLA_FORM_OTHER_TYPE);
    if (predicate.form != form || predicate.number >= form->predicates || form->predicate[predicate.number].defined)
        return sigla_form_tell_(form, SIGLA_FORM_OTHER_PREDICATE);
    form->predicate[predicate.number].key = key.number;
    form->predicate[predicate.number].value = value == NULL ? 0 : value->number;
    form->predicate[predicate.number].has_value = value != NULL;
    form->predicate[predicate.number].defined = 1;
    return SIGLA_FORM_OK;
}

/* A predicate with its types: both of the above. */
static inline enum sigla_form_error sigla_form_predicate(struct sigla_form *form, const char *name, struct sigla_form_type key,
                                                         const struct sigla_form_type *value, struct sigla_form_predicate *predicate) {
    predicate->form = NULL;
    predicate->number = 0;
    predicate->absent = 0;
    if (key.form != form || key.number >= form->types || (value != NULL && (value->form != form || value->number >= form->types)))
        return sigla_form_tell_(form, SIGLA_FORM_OTHER_TYPE);
    enum sigla_form_error error = sigla_form_declare(form, name, predicate);
    return error != SIGLA_FORM_OK ? error : sigla_form_define(form, *predicate, key, value);
}

/* ---- Queries */

/* A new query; the nodes that are made from now on are its own. It counts once it asks for something. One that is begun before the last one
 * asked takes its place. */
static inline enum sigla_form_error sigla_form_query(struct sigla_form *form) {
    sigla_form_give_up_(form);
    if (form->queries == SIGLA_QUERIES)
        return sigla_form_tell_(form, SIGLA_FORM_QUERIES);
    form->query++;
    form->query_from = form->used;
    form->open = 1;
    form->nodes = 0;
    memset(form->named, 0, sizeof form->named);
    return SIGLA_FORM_OK;
}

/* What the query asks for, and its statements; it is whole then. */
static inline enum sigla_form_error sigla_form_ask(struct sigla_form *form, struct sigla_form_node head, const struct sigla_form_statement *statements,
                                                   size_t count) {
    struct sigla_form_frame_ frame = sigla_form_frame_of_(form, SIGLA_QUERY);
    if (!form->open)
        return sigla_form_tell_(form, SIGLA_FORM_NOT_BEGUN);
    enum sigla_form_error error = sigla_form_put_asked_(form, &frame, head, statements, count);
    if (error == SIGLA_FORM_OK)
        error = sigla_form_keep_(form, frame.bytes, frame.count);
    if (error == SIGLA_FORM_OK) {
        form->queries++;
        form->open = 0;
    }
    return sigla_form_tell_(form, error);
}

/* Literals; their values are not in the file. */
static inline enum sigla_form_error sigla_form_integer(struct sigla_form *form, struct sigla_form_span span, struct sigla_form_node *node) {
    return sigla_form_leaf_(form, span, SIGLA_NODE_INTEGER, node);
}

static inline enum sigla_form_error sigla_form_string(struct sigla_form *form, struct sigla_form_span span, struct sigla_form_node *node) {
    return sigla_form_leaf_(form, span, SIGLA_NODE_STRING, node);
}

static inline enum sigla_form_error sigla_form_bytes(struct sigla_form *form, struct sigla_form_span span, struct sigla_form_node *node) {
    return sigla_form_leaf_(form, span, SIGLA_NODE_BYTES, node);
}

/* A variable; the same name is the same variable, but for queries in brackets. */
static inline enum sigla_form_error sigla_form_variable(struct sigla_form *form, struct sigla_form_span span, const char *name, struct sigla_form_node *node) {
    return sigla_form_called_(form, span, SIGLA_NODE_VARIABLE, name, NULL, 0, node);
}

/* The wildcard `_`. */
static inline enum sigla_form_error sigla_form_wildcard(struct sigla_form *form, struct sigla_form_span span, struct sigla_form_node *node) {
    return sigla_form_leaf_(form, span, SIGLA_NODE_WILDCARD, node);
}

/* `never`, which matches nothing. */
static inline enum sigla_form_error sigla_form_never(struct sigla_form *form, struct sigla_form_span span, struct sigla_form_node *node) {
    return sigla_form_leaf_(form, span, SIGLA_NODE_NEVER, node);
}

/* Strings with this prefix. */
static inline enum sigla_form_error sigla_form_prefix(struct sigla_form *form, struct sigla_form_span span, const char *text, struct sigla_form_node *node) {
    return sigla_form_called_(form, span, SIGLA_NODE_PREFIX, text, NULL, 0, node);
}

/* Strings near this term. */
static inline enum sigla_form_error sigla_form_fuzzy(struct sigla_form *form, struct sigla_form_span span, const char *text, uint8_t distance,
                                                     struct sigla_form_node *node) {
    struct sigla_form_frame_ frame = sigla_form_node_frame_(form, span, SIGLA_NODE_FUZZY);
    enum sigla_form_error error = sigla_form_put_name_(form, &frame, text);
    sigla_form_put_(&frame, distance, 1);
    return sigla_form_add_node_(form, &frame, error, node);
}

/* A record `{name = node, ..}`. */
static inline enum sigla_form_error sigla_form_record(struct sigla_form *form, struct sigla_form_span span, const struct sigla_form_entry *entries,
                                                      size_t count, struct sigla_form_node *node) {
    struct sigla_form_frame_ frame = sigla_form_node_frame_(form, span, SIGLA_NODE_RECORD);
    enum sigla_form_error error = SIGLA_FORM_OK;
    for (size_t i = 0; i < count && error == SIGLA_FORM_OK; i++) {
        error = sigla_form_put_name_(form, &frame, entries[i].name);
        if (error == SIGLA_FORM_OK)
            error = sigla_form_put_node_(form, &frame, entries[i].node);
    }
    return sigla_form_add_node_(form, &frame, error, node);
}

/* `of.name` */
static inline enum sigla_form_error sigla_form_field(struct sigla_form *form, struct sigla_form_span span, const char *name, struct sigla_form_node of,
                                                     struct sigla_form_node *node) {
    return sigla_form_called_(form, span, SIGLA_NODE_FIELD, name, &of, 1, node);
}

/* `of.value` */
static inline enum sigla_form_error sigla_form_value(struct sigla_form *form, struct sigla_form_span span, struct sigla_form_node of,
                                                     struct sigla_form_node *node) {
    return sigla_form_over_(form, span, SIGLA_NODE_VALUE, &of, 1, node);
}

/* A choice between patterns. */
static inline enum sigla_form_error sigla_form_either(struct sigla_form *form, struct sigla_form_span span, const struct sigla_form_node *nodes, size_t count,
                                                      struct sigla_form_node *node) {
    return sigla_form_over_(form, span, SIGLA_NODE_EITHER, nodes, count, node);
}

/* A query in brackets. */
static inline enum sigla_form_error sigla_form_subquery(struct sigla_form *form, struct sigla_form_span span, struct sigla_form_node head,
                                                        const struct sigla_form_statement *statements, size_t count, struct sigla_form_node *node) {
    struct sigla_form_frame_ frame = sigla_form_node_frame_(form, span, SIGLA_NODE_SUBQUERY);
    return sigla_form_add_node_(form, &frame, sigla_form_put_asked_(form, &frame, head, statements, count), node);
}

/* A fact of a predicate, with the pattern of its key. */
static inline enum sigla_form_error sigla_form_fact(struct sigla_form *form, struct sigla_form_span span, struct sigla_form_predicate predicate,
                                                    struct sigla_form_node key, struct sigla_form_node *node) {
    struct sigla_form_frame_ frame = sigla_form_node_frame_(form, span, SIGLA_NODE_FACT);
    enum sigla_form_error error = sigla_form_put_predicate_(form, &frame, predicate);
    if (error == SIGLA_FORM_OK)
        error = sigla_form_put_node_(form, &frame, key);
    return sigla_form_add_node_(form, &frame, error, node);
}

/* Arithmetic on integers. */
static inline enum sigla_form_error sigla_form_arithmetic(struct sigla_form *form, struct sigla_form_span span, const struct sigla_form_node *nodes,
                                                          size_t count, struct sigla_form_node *node) {
    return sigla_form_over_(form, span, SIGLA_NODE_ARITHMETIC, nodes, count, node);
}

/* A piece of text that could not be read. */
static inline enum sigla_form_error sigla_form_unread(struct sigla_form *form, struct sigla_form_span span, struct sigla_form_node *node) {
    return sigla_form_leaf_(form, span, SIGLA_NODE_UNREAD, node);
}

/* An alternative of a union. */
static inline enum sigla_form_error sigla_form_alternative(struct sigla_form *form, struct sigla_form_span span, const char *name, struct sigla_form_node of,
                                                           struct sigla_form_node *node) {
    return sigla_form_called_(form, span, SIGLA_NODE_ALTERNATIVE, name, &of, 1, node);
}

/* ---- The file */

/* The file, in `file`; `length` is its length, also where the slice is shorter (SIGLA_FORM_NO_ROOM, and the slice holds its beginning) or the
 * file is too long; 0 where there is no file. A query that has not asked is left out. SIGLA_FILE_BYTES suffice. */
static inline enum sigla_form_error sigla_form_write(const struct sigla_form *form, uint8_t *file, size_t file_len, size_t *length) {
    *length = 0;
    if (form->queries == 0)
        return SIGLA_FORM_NO_QUERY;
    for (uint16_t i = 0; i < form->predicates; i++)
        if (!form->predicate[i].defined)
            return SIGLA_FORM_UNDEFINED;
    struct sigla_form_frame_ frame = sigla_form_frame_of_(form, SIGLA_LIMITS);
    sigla_form_put_(&frame, form->distance, 1);
    sigla_form_put_(&frame, form->characters, 2);
    sigla_form_line_(frame.bytes, frame.count, file, file_len, length);
    sigla_form_lines_(form, SIGLA_NAME, SIGLA_NAME, file, file_len, length);
    sigla_form_lines_(form, SIGLA_TYPE, SIGLA_TYPE, file, file_len, length);
    for (uint16_t i = 0; i < form->predicates; i++) {
        frame = sigla_form_frame_of_(form, SIGLA_PREDICATE);
        sigla_form_put_(&frame, form->predicate[i].name, 2);
        sigla_form_put_(&frame, form->predicate[i].key, 2);
        sigla_form_put_(&frame, form->predicate[i].has_value, 1);
        if (form->predicate[i].has_value)
            sigla_form_put_(&frame, form->predicate[i].value, 2);
        sigla_form_line_(frame.bytes, frame.count, file, file_len, length);
    }
    sigla_form_lines_(form, SIGLA_NODE, SIGLA_QUERY, file, file_len, length);
    return *length > SIGLA_FILE_BYTES ? SIGLA_FORM_FILE : *length > file_len ? SIGLA_FORM_NO_ROOM : SIGLA_FORM_OK;
}

#ifdef __cplusplus
}
#endif

#endif
