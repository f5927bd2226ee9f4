/* The layout of an image, read in order; each code region is scanned where it stands. Part of checker.c. */

#include "../crates/sfi_translate/include/sfi_services.h"

enum { MAGIC = 1, COUNT, SHORT, CODE, DATA, GUARD_ROOM, START, GATES, INIT, OVERLAP, TRAILING };

typedef struct { u64 begin, end; } Span;

/* What is known of an image: fault is 0 while its layout is right. */
typedef struct {
    const u8 *at, *end;
    u32 fault, sandboxes, bundles, span_count;
    Span spans[32];
    Findings findings;
    int format;
} Check;

typedef struct { u32 code_base, code_size, data_base, data_size, start, gate_count, init; } Numbers;

/* The next bytes, which the check goes past, or NULL where they aren't all there. */
static const u8 *take(Check *c, size_t count) {
    const u8 *at = c->at;
    if ((size_t)(c->end - at) < count) {
        c->fault = SHORT;
        return NULL;
    }
    c->at += count;
    return at;
}

/* Whether it is a power of two in these limits, and the base a multiple of it. */
static bool is_region(u32 base, u32 size, u32 most) {
    return size >= 256 && size <= most && (size & (size - 1)) == 0 && (base & (size - 1)) == 0;
}

static bool is_bundle_start(const Numbers *n, u32 address) { return address % 16 == 0 && address - n->code_base < n->code_size; }

/* Whether no span so far meets it; it is kept. */
static bool add_span(Check *c, u64 begin, u64 end) {
    for (u32 k = 0; k < c->span_count; k++)
        if (begin < c->spans[k].end && c->spans[k].begin < end)
            return false;
    c->spans[c->span_count++] = (Span){begin, end};
    return true;
}

/* The first fault of the seven numbers, or 0. */
static u32 fault_of(Check *c, const Numbers *n) {
    u64 data_end = (u64)n->data_base + n->data_size;
    if (!is_region(n->code_base, n->code_size, c->format == 1 ? 65536 : 1048576))
        return CODE;
    if (!is_region(n->data_base, n->data_size, 1048576))
        return DATA;
    if (n->data_base < 4096 || data_end + 4096 > 1ull << 32)
        return GUARD_ROOM;
    if (!is_bundle_start(n, n->start))
        return START;
    if (n->gate_count > 64)
        return GATES;
    if (n->init > n->data_size)
        return INIT;
    bool is_apart = add_span(c, n->code_base, (u64)n->code_base + n->code_size)
        && add_span(c, (u64)n->data_base - 4096, data_end + 4096);
    return is_apart ? 0 : OVERLAP;
}

/* The gates, or NULL where there is a fault. */
static const u8 *take_gates(Check *c, const Numbers *n) {
    const u8 *gates = c->at;
    for (u32 k = 0; k < n->gate_count; k++) {
        const u8 *gate = take(c, 8);
        if (!gate)
            return NULL;
        bool is_above = k == 0 || word_at(gate) > word_at(gate - 8);
        if (!is_bundle_start(n, word_at(gate)) || !is_above || word_at(gate + 4) >= SFI_SERVICES) {
            c->fault = GATES;
            return NULL;
        }
    }
    return gates;
}

static void check_sandbox(Check *c, u32 sandbox) {
    Numbers n;
    const u8 *numbers = take(c, sizeof n);
    if (!numbers)
        return;
    memcpy(&n, numbers, sizeof n);
    c->fault = fault_of(c, &n);
    const u8 *gates = c->fault ? NULL : take_gates(c, &n);
    const u8 *code = gates ? take(c, n.code_size) : NULL;
    if (!code)
        return;
    Region region = {sandbox, n.code_base, n.code_size, n.gate_count, gates, code};
    scan_region(&region, c->format, &c->findings);
    c->bundles += n.code_size / 16;
    take(c, n.init);
}

/* The magic and the count. */
static void check_front(Check *c) {
    const u8 *magic = take(c, 4);
    if (!magic)
        return;
    c->format = memcmp(magic, "SFI", 3) == 0 && (magic[3] == '1' || magic[3] == '2') ? magic[3] - '0' : 0;
    if (c->format == 0) {
        c->fault = MAGIC;
        return;
    }
    const u8 *count = take(c, 4);
    if (!count)
        return;
    c->sandboxes = word_at(count);
    if (c->sandboxes < 1 || c->sandboxes > 16)
        c->fault = COUNT;
}

static Check check(const u8 *image, size_t length, bool is_listed) {
    Check c = {.at = image, .end = image + length, .findings.is_listed = is_listed};
    check_front(&c);
    for (u32 sandbox = 0; c.fault == 0 && sandbox < c.sandboxes; sandbox++)
        check_sandbox(&c, sandbox);
    if (c.fault == 0 && c.at != c.end)
        c.fault = TRAILING;
    return c;
}
