/* The type checker of Sigla queries, for programs in C and C++. The calls are proved for every file and all slices (docs/PROMISE.md); what
 * is `static inline` below is tested, not proved. docs/FORMAT.md has files, answers and refusals, sigla_answer.h a reader of answers.
 *
 * What do I link?         libsigla_lib.a, which `tools/build sigla_lib` makes in target/staticlib; installed it is libsigla.a, and
 *                         `pkg-config --cflags --libs sigla` has the words. Of the C library it needs memcpy and memset alone.
 * What do I lend?         A work slice of SIGLA_WORDS words and a slice for the answer, SIGLA_BYTES bytes where you have no reason for
 *                         another length. They may hold anything before a call. The library allocates nothing and keeps no pointer.
 * What do I get back?     0, and the answer's lines stand in the slice, zeros after the last LF; or the refusal's number. After a refusal
 *                         both slices are zero throughout, after an acceptance the work slice is: nothing of a file stays behind.
 * How long is it?         To the first zero byte, or the whole slice: sigla_length, or the call sigla_check_length.
 * May slices overlap?     Two that are only read may: both files of sigla_growth, both arrays of sigla_set_up. A slice or a place that is
 *                         written may overlap nothing else: what happens then is undefined.
 * May a pointer be NULL?  Yes, or point anywhere, where its length is 0. With another length that is undefined, as it is for the tally, the
 *                         group and the places for one number, which must be there.
 * A length that is wrong? Undefined where less is there: a slice that is written is written throughout. But a file's length over
 *                         SIGLA_FILE_BYTES, up to SIZE_MAX, is refused as such, and so are more than SIGLA_DESKS shares or caps, or not
 *                         as many of both: nothing is read there.
 * Alignment?              That of the pointers' own types: 1 for bytes, 4 for words and numbers, that of size_t for a length. Another one is
 *                         undefined: no call looks at it.
 * How much stack?         SIGLA_STACK bytes suffice for every call and every file: a bound computed from the library's object by tools/stack, not
 *                         proved; the deepest files run on a thread with just that many. A call on a smaller stack may run past it: the
 *                         guard page then ends the process. Threads of musl and of some embedded systems are smaller by default.
 * Threads?                Calls share nothing: any number may run at once, each with its own slices, tally and group.
 * Signals, longjmp?       A call may be interrupted; its slices then hold anything. It never calls back, blocks or raises.
 * How long does it take?  Microseconds; a query makes at most 1,048,576 visits, tens of milliseconds.
 * Which platform?         x86-64 Linux, on every x86-64 processor, the C calling convention of that system. No file, clock, locale or
 *                         environment is read.
 * Which edition?          Predicate numbers of 4 bytes. Files of the older one, with 2, go through sigla_widen first.
 * Which version?          SIGLA_VERSION_NUMBER is this header's, sigla_version() the linked library's: a library that is no older, with the
 *                         same major number (while that is 0: the same minor one), has all that this header says.
 * What is an ABI change?  A call that goes or takes other arguments, another layout of sigla_tally or sigla_group, another value of a
 *                         constant, a number that comes to mean something else, a longer work slice. Then the shared library gets another
 *                         name (libsigla.so.0 is the first), and the major number rises, or while that is 0 the minor one. No such change
 *                         is a call more, a refusal's number more, a kind of line more, another message: let pass what you do not know.
 *                         In the shared library each call has the version that it came with (SIGLA_0.3 and so on); the static one has no
 *                         such names, so there ask sigla_version. */
#ifndef SIGLA_H
#define SIGLA_H

#include <stddef.h>
#include <stdint.h>
#include <string.h>

#define SIGLA_VERSION "0.3.0"
#define SIGLA_VERSION_MAJOR 0
#define SIGLA_VERSION_MINOR 3
#define SIGLA_VERSION_PATCH 0
#define SIGLA_VERSION_NUMBER (SIGLA_VERSION_MAJOR << 16 | SIGLA_VERSION_MINOR << 8 | SIGLA_VERSION_PATCH)

#define SIGLA_WORDS 16384       /* the words that must be lent */
#define SIGLA_BYTES 65536       /* the answer bytes that the program lends */
#define SIGLA_QUERIES 64        /* the most queries of a file */
#define SIGLA_LENT_WORDS 65536  /* the words that the program lends to the plain solver */
#define SIGLA_STACK 262144      /* bytes of stack that suffice for every call (tools/stack) */

/* The limits of a file. */
#define SIGLA_FILE_BYTES 65536
#define SIGLA_FRAME_BYTES 512
#define SIGLA_NAMES 256
#define SIGLA_TYPES 256
#define SIGLA_PREDICATES 128
#define SIGLA_NODES 512         /* of each query */
#define SIGLA_VISITS 1048576    /* of each query */
#define SIGLA_DESKS 16
#define SIGLA_TYPE_DEPTH 768    /* no type of an answer is nested deeper */

/* The first byte of a line: 01 to 06 of a file, the others of an answer. */
enum sigla_kind {
    SIGLA_LIMITS = 0x01,
    SIGLA_NAME = 0x02,
    SIGLA_TYPE = 0x03,
    SIGLA_PREDICATE = 0x04,
    SIGLA_NODE = 0x05,
    SIGLA_QUERY = 0x06,
    SIGLA_NODE_TYPE = 0x07,     /* node (2), its type */
    SIGLA_DIAGNOSTIC = 0x08,    /* start (4), end (4), code */
    SIGLA_VISITS_MADE = 0x09,   /* visits (4): the last line of a query */
    SIGLA_MESSAGE = 0x0a,       /* the text of the diagnostic before */
    SIGLA_QUERY_NUMBER = 0x0b,  /* number (2), before the lines of each of several queries */
    SIGLA_WRITTEN_ONCE = 0x0c,  /* start (4), end (4) of a name that is written only there */
    SIGLA_LAMP = 0x0d,          /* what the program sigla_lamp prints: 00 or 01 */
    SIGLA_INSPECTED = 0x0e,     /* what the program sigla_inspect prints: what is told (1) */
    SIGLA_REFUSED = 0x0f        /* what the programs print of a refusal: its number (1) */
};

/* The first byte of a type; the first six are also the shapes of schema types (03). */
enum sigla_type_shape {
    SIGLA_TYPE_INTEGER = 0x00,
    SIGLA_TYPE_STRING = 0x01,
    SIGLA_TYPE_BYTES = 0x02,
    SIGLA_TYPE_FACT = 0x03,     /* predicate (4) */
    SIGLA_TYPE_RECORD = 0x04,   /* in an answer: fields (2), for each: name (2), its type */
    SIGLA_TYPE_UNION = 0x05,    /* in an answer: alternatives (2), for each: name (2), discriminant (4), its type */
    SIGLA_TYPE_OPEN = 0x06,     /* number (2) */
    SIGLA_TYPE_ERROR = 0x07,
    SIGLA_TYPE_NONE = 0xff      /* the node was not looked at */
};

/* The shapes of nodes (05). */
enum sigla_node_shape {
    SIGLA_NODE_INTEGER = 0x00,
    SIGLA_NODE_STRING = 0x01,
    SIGLA_NODE_BYTES = 0x02,
    SIGLA_NODE_VARIABLE = 0x03,
    SIGLA_NODE_WILDCARD = 0x04,
    SIGLA_NODE_NEVER = 0x05,
    SIGLA_NODE_PREFIX = 0x06,
    SIGLA_NODE_FUZZY = 0x07,
    SIGLA_NODE_RECORD = 0x08,
    SIGLA_NODE_FIELD = 0x09,
    SIGLA_NODE_VALUE = 0x0a,
    SIGLA_NODE_EITHER = 0x0b,
    SIGLA_NODE_SUBQUERY = 0x0c,
    SIGLA_NODE_FACT = 0x0d,
    SIGLA_NODE_ARITHMETIC = 0x0e,
    SIGLA_NODE_UNREAD = 0x0f,
    SIGLA_NODE_ALTERNATIVE = 0x10
};

/* The bytes of statements (in 06, and in 05 of shape 0c). */
enum sigla_statement {
    SIGLA_BINDS = 0x00,
    SIGLA_HOLDS = 0x01,
    SIGLA_DENIES = 0x02,
    SIGLA_DIFFERS = 0x03,
    SIGLA_COMPARES = 0x04
};

/* Why a file or a call is turned down (written from bindings/refusals.toml, as sigla_reason is). */
enum sigla_refusal {
    SIGLA_ACCEPTED = 0,
    SIGLA_WORK_TOO_SHORT = 1,
    SIGLA_FILE_TOO_LONG = 2,
    SIGLA_MALFORMED_LINE = 3,
    SIGLA_MISPLACED_KIND = 4,
    SIGLA_TOO_MANY = 5,
    SIGLA_MALFORMED_FRAME = 6,
    SIGLA_BROKEN_TEXT = 7,
    SIGLA_NAME_GIVEN_BEFORE = 8,
    SIGLA_BAD_REFERENCE = 9,
    SIGLA_REPEATED_KEY = 10,
    SIGLA_TOO_MANY_VISITS = 11,
    SIGLA_ANSWER_TOO_LONG = 12,
    SIGLA_TOO_MANY_QUERIES = 13,
    SIGLA_NUMBER_TOO_WIDE = 14,
    SIGLA_TALLY_TOO_LARGE = 15,
    SIGLA_CEILING_PASSED = 16,
    SIGLA_OUTSIDE_THE_RULES = 17,
    SIGLA_TOO_FEW_WORDS = 18
};

#ifdef __cplusplus
extern "C" {
#endif

/* The version of the library that the program runs with: 65,536 times the major number, 256 times the minor one, and the patch, to be held
 * against SIGLA_VERSION_NUMBER. */
uint32_t sigla_version(void);

/* 0 where the file is accepted: the answer's lines stand in `answer`, and zeros after the last LF, so the answer ends at the first zero
 * byte or with the slice. A file may hold up to 64 queries over one schema; with more than one, a line 0b and the query's number stand
 * before each query's lines; the last line of a query is 09 and its visits. Else the refusal's number, 1 to 13, for the whole file
 * (docs/FORMAT.md has the files, the answers and the refusals). */
uint8_t sigla_check(const uint8_t *file, size_t file_len, uint32_t *work, size_t work_len, uint8_t *answer, size_t answer_len);

/* Whether a query of the file has a diagnostic: `lit` is 1 or 0. Each query runs until its first one, in the file's order, and no answer is
 * written. Else the refusal's number, 1 to 11 or 13, and `lit` is 0; 11 only where no diagnostic came first. The work slice is zero
 * throughout after each. */
uint8_t sigla_lamp(const uint8_t *file, size_t file_len, uint32_t *work, size_t work_len, uint32_t *lit);

/* What the plain solver tells of a unification. */
enum sigla_told {
    SIGLA_TOLD_FAILURE = 0,     /* as the check's unification does there */
    SIGLA_TOLD_SUCCESS = 1,     /* the bindings stand in the lent slice */
    SIGLA_TOLD_SHUT_OUT = 2,    /* a side reaches an Error or a record that names a field twice */
    SIGLA_TOLD_FEWER = 3        /* the file's run has no n-th entry */
};

/* The first of the one or two words of a token in the lent slice after a success; what is owed follows it. */
enum sigla_token_kind {
    SIGLA_TOKEN_INTEGER = 1,
    SIGLA_TOKEN_STRING = 2,
    SIGLA_TOKEN_BYTES = 3,
    SIGLA_TOKEN_FACT = 4,       /* predicate */
    SIGLA_TOKEN_RECORD = 5,     /* how many fields: as many tokens 9, each before its type */
    SIGLA_TOKEN_UNION = 6,      /* how many alternatives: as many tokens 10 */
    SIGLA_TOKEN_UNKNOWN = 7,    /* number */
    SIGLA_TOKEN_ERROR = 8,
    SIGLA_TOKEN_KEY = 9,        /* the name of a field or the discriminant of an alternative, before its type */
    SIGLA_TOKEN_LABEL = 10,     /* the name of an alternative, before its token 9 */
    SIGLA_TOKEN_BINDING = 11    /* the unknown that is bound, before its type */
};

/* The n-th unification of a file's run, solved by the plain solver (docs/FORMAT.md): the entries from outside are counted from 0 over the
 * runs of all queries, those that fail and those that are taken back among them. 0, and `told` is one of enum sigla_told; after a success
 * the lent slice holds the bindings, the newest first, and then zeros (sigla_next_binding of sigla_answer.h), else it is zero throughout.
 * Else a refusal's number, 1 to 11 or 13 as of the check, 11 also where the visits run out after the entry; then 18 where the solver needs
 * more words than were lent; `told` is 0 and the lent slice zero. The work slice is zero after each. */
uint8_t sigla_inspect(const uint8_t *file, size_t file_len, uint32_t n, uint32_t *work, size_t work_len, uint32_t *lent, size_t lent_len,
                      uint32_t *told);

/* The two editions of files: predicate references of 2 bytes (narrow) and of 4 (wide), which alone the check reads. 0: the file stands
 * in `out` in the other edition, zeros after it. Else 1 to 10 and 13 of the edition that is read, 12, and 14 for a number above
 * 65,535 on the way back. */
uint8_t sigla_widen(const uint8_t *file, size_t file_len, uint32_t *work, size_t work_len, uint8_t *out, size_t out_len);
uint8_t sigla_narrow(const uint8_t *file, size_t file_len, uint32_t *work, size_t work_len, uint8_t *out, size_t out_len);

/* Whether the queries of the old file keep their answers in the new one, byte for byte: 0, or the first of these premises that fails.
 * The work slice is zero afterwards; one of fewer than SIGLA_WORDS words turns the old file down. */
enum sigla_premise {
    SIGLA_PREMISES_HOLD = 0,
    SIGLA_OLD_REFUSED = 1,      /* the old file is past refusals 1 to 10 and 13 */
    SIGLA_NEW_REFUSED = 2,      /* the new file is */
    SIGLA_OTHER_CHANGE = 3,     /* the new file has more names, types and predicates, each after all old ones of its kind, and no other change */
    SIGLA_NAMES_ABSENT = 4      /* the old file names no predicate by a number that it has none for, in a type or in a node */
};
uint8_t sigla_growth(const uint8_t *old, size_t old_len, const uint8_t *new_file, size_t new_len, uint32_t *work, size_t work_len);

#define SIGLA_LOAD_BYTES 8255   /* no file of a seed is longer */

/* The test load (docs/FORMAT.md): 0, the file of the seed stands in `out` with zeros after it, and `length` is its length. Or 12 where
 * the slice is shorter than the file: it holds zeros, and `length` is 0. */
uint8_t sigla_load(uint32_t seed, uint8_t *out, size_t out_len, size_t *length);

/* A tally: units of 1,000 visits, cents, and the visits that fill no unit yet. Zeros to begin with. */
struct sigla_tally {
    uint32_t units, cents, remainder;
};

/* A query's visits (its line 09) at its price join the tally; or 15, and the tally stays. */
uint8_t sigla_tally(struct sigla_tally *tally, uint32_t visits, uint16_t price);

/* A desk of a cabinet, and the group of all of them: the first `count` places are desks. */
struct sigla_desk {
    uint32_t share, cap, used;
};

struct sigla_group {
    uint32_t count, pool;
    struct sigla_desk desks[SIGLA_DESKS];
};

/* A desk for each share and cap, unused; or 17, and a group without desks. */
uint8_t sigla_set_up(struct sigla_group *group, uint32_t pool, const uint32_t *shares, size_t shares_len, const uint32_t *caps, size_t caps_len);

/* The visits that a desk may make now; or 17, and 0 there. Desks count from 0. */
uint8_t sigla_ceiling(const struct sigla_group *group, size_t desk, uint32_t *visits);

/* Each use is 0 again; or 17, and the group stays. */
uint8_t sigla_new_day(struct sigla_group *group);

/* As sigla_check, each query under the desk's ceiling of that moment and charged to it; 16 in the place of 11 where the ceiling is under
 * 1,048,576. 17 before all others, and the group stays. */
uint8_t sigla_check_at(struct sigla_group *group, size_t desk, const uint8_t *file, size_t file_len, uint32_t *work, size_t work_len,
                       uint8_t *answer, size_t answer_len);

/* What a refusal's number says, in a line. */
static inline const char *sigla_reason(uint8_t number) {
    switch (number) {
    case SIGLA_ACCEPTED: return "accepted";
    case SIGLA_WORK_TOO_SHORT: return "the work slice has fewer than 16,384 words";
    case SIGLA_FILE_TOO_LONG: return "the file has more than 65,536 bytes";
    case SIGLA_MALFORMED_LINE: return "a line is empty, has an odd number of digits, another character, more than 512 bytes, or no LF";
    case SIGLA_MISPLACED_KIND: return "a kind is unknown or stands where it may not, or the file does not end with a query";
    case SIGLA_TOO_MANY: return "there are over 256 names, 256 types, 128 predicates, or 512 nodes of a query";
    case SIGLA_MALFORMED_FRAME: return "a frame has an unknown shape, flag or statement byte, or is too short or too long for it";
    case SIGLA_BROKEN_TEXT: return "a text is not UTF-8";
    case SIGLA_NAME_GIVEN_BEFORE: return "a name was given before";
    case SIGLA_BAD_REFERENCE: return "a reference is to a name, type or node that no earlier line gives, or to a node that was named before";
    case SIGLA_REPEATED_KEY: return "a record type repeats a name, or a union type a discriminant";
    case SIGLA_TOO_MANY_VISITS: return "a query needs more than 1,048,576 visits";
    case SIGLA_ANSWER_TOO_LONG: return "the answer is longer than the answer slice";
    case SIGLA_TOO_MANY_QUERIES: return "there are more than 64 queries";
    case SIGLA_NUMBER_TOO_WIDE: return "a predicate's number above 65,535 does not fit in the narrow edition";
    case SIGLA_TALLY_TOO_LARGE: return "a total of the tally would pass 32 bits, or its remainder is over 999";
    case SIGLA_CEILING_PASSED: return "a query needs more visits than the desk's ceiling, which is under 1,048,576";
    case SIGLA_OUTSIDE_THE_RULES: return "the desk number or the group of desks is outside the rules";
    case SIGLA_TOO_FEW_WORDS: return "the plain solver needs more words than were lent to it";
    default: return "turned down for a reason that this version does not know";
    }
}

/* The bytes of an answer, or of a file that was turned into the other edition: those before the first zero, or all. */
static inline size_t sigla_length(const uint8_t *answer, size_t answer_len) {
    const void *end = answer_len == 0 ? NULL : memchr(answer, 0, answer_len);
    return end == NULL ? answer_len : (size_t)((const uint8_t *)end - answer);
}

/* As sigla_check, and gives the answer's length back; 0 after a refusal. */
static inline uint8_t sigla_check_length(const uint8_t *file, size_t file_len, uint32_t *work, size_t work_len, uint8_t *answer,
                                         size_t answer_len, size_t *length) {
    uint8_t refusal = sigla_check(file, file_len, work, work_len, answer, answer_len);
    *length = refusal == SIGLA_ACCEPTED ? sigla_length(answer, answer_len) : 0;
    return refusal;
}

#ifdef __cplusplus
}
#endif

#endif
