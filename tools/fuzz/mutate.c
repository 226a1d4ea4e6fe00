/* Files that are nearly files: a mutation decodes the lines, changes frames, adds nodes over nodes that nothing names yet, types, predicates
 * and statements, and writes the lines again. Now and then the bytes themselves are changed, by libFuzzer. */
#include <stdint.h>
#include <stdlib.h>
#include <string.h>

size_t LLVMFuzzerMutate(uint8_t *data, size_t size, size_t most);
size_t LLVMFuzzerCustomMutator(uint8_t *data, size_t size, size_t most, unsigned seed);
size_t LLVMFuzzerCustomCrossOver(const uint8_t *one, size_t n, const uint8_t *two, size_t m, uint8_t *out, size_t most, unsigned seed);

#define LINES 2048
#define FRAME 514

struct frame {
    uint16_t length;
    uint8_t bytes[FRAME];
};

struct file {
    size_t count;
    struct frame frames[LINES];
};

static struct file file, other;
static uint32_t state;

static uint32_t below(uint32_t n) {
    state ^= state << 13;
    state ^= state >> 17;
    state ^= state << 5;
    return n == 0 ? 0 : state % n;
}

static int digit(uint8_t c) { return c >= '0' && c <= '9' ? c - '0' : c >= 'a' && c <= 'f' ? c - 'a' + 10 : -1; }

/* Whether all lines are frames. */
static int decode(const uint8_t *data, size_t n, struct file *to) {
    to->count = 0;
    for (size_t at = 0; at < n;) {
        struct frame *frame = &to->frames[to->count];
        if (to->count++ == LINES)
            return 0;
        frame->length = 0;
        for (; at + 1 < n && data[at] != '\n'; at += 2) {
            if (frame->length == FRAME || digit(data[at]) < 0 || digit(data[at + 1]) < 0)
                return 0;
            frame->bytes[frame->length++] = (uint8_t)(digit(data[at]) << 4 | digit(data[at + 1]));
        }
        if (at == n || data[at++] != '\n' || frame->length == 0)
            return 0;
    }
    return to->count > 0;
}

static size_t encode(const struct file *from, uint8_t *out, size_t most) {
    size_t n = 0;
    for (size_t i = 0; i < from->count; i++) {
        const struct frame *frame = &from->frames[i];
        if (n + 2u * frame->length + 1 > most)
            break;
        for (size_t j = 0; j < frame->length; j++) {
            out[n++] = (uint8_t) "0123456789abcdef"[frame->bytes[j] >> 4];
            out[n++] = (uint8_t) "0123456789abcdef"[frame->bytes[j] & 15];
        }
        out[n++] = '\n';
    }
    return n;
}

static void insert(size_t at, const struct frame *frame) {
    if (file.count == LINES)
        return;
    memmove(&file.frames[at + 1], &file.frames[at], (file.count - at) * sizeof *file.frames);
    file.frames[at] = *frame;
    file.count++;
}

static void put(struct frame *frame, uint32_t number, size_t bytes) {
    while (bytes-- > 0 && frame->length < FRAME)
        frame->bytes[frame->length++] = (uint8_t)(number >> 8 * bytes);
}

/* How many frames of a kind there are, and where the last one ends, or where the first would stand. */
static size_t count_of(uint8_t kind, size_t *end) {
    size_t n = 0;
    *end = 0;
    for (size_t i = 0; i < file.count; i++) {
        n += file.frames[i].bytes[0] == kind;
        if (file.frames[i].bytes[0] <= kind)
            *end = i + 1;
        else
            break;
    }
    return n;
}

static uint32_t some(size_t n) { return below(16) == 0 ? below(65536) : below((uint32_t)n); }

static uint32_t predicate(void) {
    size_t end, n = count_of(4, &end);
    return below(8) == 0 ? 65536 + below(4) : below(4) == 0 ? below(4) : some(n);
}

static void add_name(void) {
    size_t end;
    count_of(2, &end);
    struct frame frame = {1, {2}};
    static const char *const texts[] = {"value", "x", "y", "pen", "", "\xc3\xa9", "\xf0\x9f\x96\x8b", "\xed\x9f\xbf"};
    if (below(2) == 0) {
        const char *text = texts[below(8)];
        for (size_t i = 0; text[i] != 0; i++)
            put(&frame, (uint8_t)text[i], 1);
    } else {
        for (size_t n = below(40); n > 0; n--)
            put(&frame, 'a' + below(26), 1);
    }
    insert(end, &frame);
}

static void add_type(void) {
    size_t end, ignored, types = count_of(3, &end), names = count_of(2, &ignored);
    struct frame frame = {2, {3, (uint8_t)below(6)}};
    if (frame.bytes[1] == 3)
        put(&frame, predicate(), 4);
    if (frame.bytes[1] > 3 && (types == 0 || names == 0))
        frame.bytes[1] = (uint8_t)below(3);
    if (frame.bytes[1] > 3)
        for (size_t n = below(below(4) == 0 ? 60 : 5); n > 0; n--) {
            put(&frame, some(names), 2);
            if (frame.bytes[1] == 5)
                put(&frame, below(3) == 0 ? 0xffffffff - below(3) : below(70), 4);
            put(&frame, some(types), 2);
        }
    insert(end, &frame);
}

static void add_predicate(void) {
    size_t end, ignored, types = count_of(3, &ignored), names = count_of(2, &ignored);
    count_of(4, &end);
    struct frame frame = {1, {4}};
    uint32_t value = below(2);
    put(&frame, some(names), 2);
    put(&frame, some(types), 2);
    put(&frame, value, 1);
    if (value == 1)
        put(&frame, some(types), 2);
    insert(end, &frame);
}

/* The nodes of a query that nothing names yet, up to its line 06; and where that line is. */
static size_t free_nodes(size_t first, uint16_t *nodes, size_t *query, size_t *count) {
    static uint8_t named[65536];
    memset(named, 0, sizeof named);
    size_t n = 0, i = first;
    for (; i < file.count && file.frames[i].bytes[0] == 5; i++, n++) {
        const struct frame *f = &file.frames[i];
        /* whatever two bytes could be a node: more are taken for named than are */
        for (size_t j = 10; j + 1 < f->length; j++)
            named[f->bytes[j] << 8 | f->bytes[j + 1]] |= j >= 12 || f->bytes[9] == 0x0a || f->bytes[9] == 0x0b || f->bytes[9] == 0x0e || f->bytes[9] == 0x0c;
    }
    if (i < file.count)
        for (size_t j = 1; j + 1 < file.frames[i].length; j++)
            named[file.frames[i].bytes[j] << 8 | file.frames[i].bytes[j + 1]] = 1;
    size_t found = 0;
    for (size_t k = 0; k < n && found < 512; k++)
        if (!named[k])
            nodes[found++] = (uint16_t)k;
    *query = i;
    *count = n;
    return found;
}

/* A node over nodes that nothing names, and perhaps a statement of it. */
static void add_node(void) {
    size_t ignored, names = count_of(2, &ignored), starts[66], queries = 0;
    for (size_t i = 0; i < file.count && queries < 65; i++)
        if (file.frames[i].bytes[0] == 5 && (i == 0 || file.frames[i - 1].bytes[0] != 5))
            starts[queries++] = i;
    if (queries == 0)
        return;
    size_t query, count, first = starts[below((uint32_t)queries)];
    uint16_t nodes[512];
    size_t n = free_nodes(first, nodes, &query, &count);
    struct frame frame = {1, {5}};
    put(&frame, below(100), 4);
    put(&frame, below(100), 4);
    uint8_t shape = (uint8_t)below(17);
    put(&frame, shape, 1);
#define FREE() (n > 0 && below(32) != 0 ? nodes[--n] : some(count))
    switch (shape) {
    case 0x03: case 0x06: put(&frame, some(names), 2); break;
    case 0x07: put(&frame, some(names), 2); put(&frame, below(5), 1); break;
    case 0x08: for (size_t k = below(4); k > 0 && n > 0; k--) { put(&frame, some(names), 2); put(&frame, FREE(), 2); } break;
    case 0x09: case 0x10: put(&frame, some(names), 2); put(&frame, FREE(), 2); break;
    case 0x0a: put(&frame, FREE(), 2); break;
    case 0x0b: case 0x0e: for (size_t k = below(4); k > 0 && n > 0; k--) put(&frame, FREE(), 2); break;
    case 0x0c:
        put(&frame, FREE(), 2);
        for (size_t k = below(3); k > 0 && n > 1; k--) {
            uint8_t byte = (uint8_t)below(5);
            put(&frame, byte, 1);
            put(&frame, FREE(), 2);
            if (byte != 1 && byte != 2)
                put(&frame, FREE(), 2);
        }
        break;
    case 0x0d: put(&frame, predicate(), 4); put(&frame, FREE(), 2); break;
    default: break;
    }
    insert(query, &frame);
    query++;
    if (query >= file.count || file.frames[query].bytes[0] != 6 || below(3) == 0)
        return;
    struct frame *asked = &file.frames[query];
    uint8_t byte = (uint8_t)below(5);
    put(asked, byte, 1);
    uint32_t left = (uint32_t)count;
    if (byte != 1 && byte != 2) {
        uint32_t right = FREE();
        if (below(2) == 0) {
            put(asked, right, 2);
        } else {
            put(asked, left, 2);
            left = right;
        }
    }
    put(asked, left, 2);
#undef FREE
}

static void add_query(void) {
    size_t from = below((uint32_t)file.count);
    while (from > 0 && file.frames[from - 1].bytes[0] == 5)
        from--;
    for (size_t i = from; i < file.count && file.frames[i].bytes[0] >= 5 && file.count < LINES; i++) {
        file.frames[file.count] = file.frames[i];
        file.count++;
        if (file.frames[i].bytes[0] == 6)
            break;
    }
}

static void change(void) {
    size_t i = below((uint32_t)file.count);
    struct frame *frame = &file.frames[i];
    switch (below(12)) {
    case 0: case 1: case 2:
        if (frame->length > 1)
            frame->length = (uint16_t)(1 + LLVMFuzzerMutate(frame->bytes + 1, frame->length - 1u, FRAME - 2));
        break;
    case 3: {
        /* a reference */
        size_t from = frame->bytes[0] == 5 ? 10 : 1;
        if (frame->length > from + 1) {
            size_t at = from + below((uint32_t)(frame->length - from - 1));
            frame->bytes[at] = 0;
            frame->bytes[at + 1] = (uint8_t)below(12);
        }
        break;
    }
    case 4: {
        struct frame copy = *frame;
        insert(i, &copy);
        break;
    }
    case 5:
        if (file.count > 1) {
            memmove(frame, frame + 1, (file.count - i - 1) * sizeof *frame);
            file.count--;
        }
        break;
    case 6: add_name(); break;
    case 7: add_type(); break;
    case 8: add_predicate(); break;
    case 9: add_query(); break;
    default: add_node(); break;
    }
}

size_t LLVMFuzzerCustomMutator(uint8_t *data, size_t size, size_t most, unsigned seed) {
    state = seed | 1;
    below(1);
    if (below(16) == 0 || !decode(data, size, &file))
        return LLVMFuzzerMutate(data, size, most);
    for (uint32_t n = 1 + below(4); n > 0; n--)
        change();
    return encode(&file, data, most);
}

/* The schema of one and a query of the other, or queries of both. */
size_t LLVMFuzzerCustomCrossOver(const uint8_t *one, size_t n, const uint8_t *two, size_t m, uint8_t *out, size_t most, unsigned seed) {
    state = seed | 1;
    below(1);
    if (!decode(one, n, &file) || !decode(two, m, &other))
        return 0;
    if (below(2) == 0)
        while (file.count > 0 && file.frames[file.count - 1].bytes[0] >= 5)
            file.count--;
    for (size_t i = 0; i < other.count && file.count < LINES; i++)
        if (other.frames[i].bytes[0] >= 5)
            file.frames[file.count++] = other.frames[i];
    return encode(&file, out, most);
}
