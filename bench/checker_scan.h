/* The rules of code in bundles, on a region of code. Part of checker.c. */

typedef struct { u32 sandbox, address, rule; } Finding;

typedef struct { u32 count; Finding first; bool is_listed; } Findings; /* each is printed where is_listed */

typedef struct { u32 sandbox, base, size, gate_count; const u8 *gates, *code; } Region;

/* An instruction in its bundle. before has a bit for each instruction before it, the last in bit 0: 1 where that has 32 bits. */
typedef struct { const Region *region; const u8 *bundle; u32 address, place, class, before; } Spot;

static const u8 stub[16] = {0x73, 0, 0, 0, 0xb3, 0xff, 0x90, 0x01, 0xb3, 0xef, 0x8f, 0x01, 0x67, 0x80, 0x0f, 0};

static __attribute__((noinline)) void add_finding(Findings *findings, const Region *r, u32 address, u32 rule) {
    Finding finding = {r->sandbox, address, rule};
    if (findings->count++ == 0)
        findings->first = finding;
    if (findings->is_listed)
        printf("%u %08x V%u\n", r->sandbox, address, rule);
}

INLINE u32 spot_half(const Spot *s) { return half_at(s->bundle + s->place); }
INLINE u32 spot_word(const Spot *s) { return word_at(s->bundle + s->place); }
INLINE u32 end_of(const Spot *s) { return s->place + 2 + 2 * (s->class & 1); }

/* Whether and t, a, mask; or t, t, base stand directly before it. */
INLINE bool has_pair(const Spot *s, u32 t, u32 mask, u32 base) {
    return (s->before & 3) == 3 && t != 0 && !is_reserved(t) && is_mask(word_at(s->bundle + s->place - 8), t, mask)
        && is_base(word_at(s->bundle + s->place - 4), t, base);
}

INLINE u32 access_rule(const Spot *s, u32 base) { return has_pair(s, base, 27, 26) ? 0 : 5; }
INLINE u32 jump_rule(const Spot *s, u32 base) { return has_pair(s, base, 25, 24) ? 0 : 6; }

INLINE u32 target_rule(const Spot *s, u32 offset) {
    u32 target = s->address + s->place + offset;
    return target % 16 != 0 || target - s->region->base >= s->region->size ? 7 : 0;
}

INLINE u32 wide_access_rule(const Spot *s, int format) {
    u32 base = bits(spot_word(s), 19, 15);
    return format == 2 && base == 2 ? 0 : access_rule(s, base);
}

INLINE u32 wide_jump_rule(const Spot *s) {
    u32 word = spot_word(s);
    return bits(word, 31, 20) ? 6 : jump_rule(s, bits(word, 19, 15));
}

/* V1, V3, V5, V6 or V7, by its class. A gate's bundle, where an ecall may be, is compared with the stub instead. */
INLINE u32 class_rule(const Spot *s, int format) {
    u32 class = s->class & CLASS, second = class & 1 ? half_at(s->bundle + s->place + 2) : 0, seven = second >> 9;
    switch (class) {
    case ILLEGAL: return 1;
    case WIDE_COMPUTE: return seven > 1 && (seven != 0x20 || (0x21 >> bits(spot_half(s), 14, 12) & 1) == 0);
    case WIDE_LEFT: return seven != 0;
    case WIDE_RIGHT: return (seven & ~0x20u) != 0;
    case WIDE_SYSTEM: return second == 0 ? 3 : second != 0x10;
    case SHORT_ACCESS: return access_rule(s, 8 + bits(spot_half(s), 9, 7));
    case SHORT_STACK: return access_rule(s, 2);
    case WIDE_ACCESS: return wide_access_rule(s, format);
    case SHORT_JUMP: return jump_rule(s, bits(spot_half(s), 11, 7));
    case WIDE_JUMP: return wide_jump_rule(s);
    case SHORT_JAL: return target_rule(s, short_jal_offset(spot_half(s)));
    case WIDE_JAL: return target_rule(s, jal_offset(spot_word(s)));
    case SHORT_BRANCH: return target_rule(s, short_branch_offset(spot_half(s)));
    case WIDE_BRANCH: return target_rule(s, branch_offset(spot_word(s)));
    default: return 0;
    }
}

/* jal, jalr, and of what else decodes and is no ecall, ebreak */
INLINE bool may_end(u32 class) {
    switch (class & CLASS) {
    case SHORT_JUMP: case WIDE_JUMP: case SHORT_JAL: case WIDE_JAL: case SHORT_BREAK: case WIDE_SYSTEM: return true;
    default: return false;
    }
}

/* Whether and x2, a, x27; or x2, x2, x26 stand there in the bundle. */
INLINE bool is_stack_pair(const u8 *bundle, u32 place) {
    return place <= 8 && is_mask(word_at(bundle + place), 2, 27) && is_base(word_at(bundle + place + 4), 2, 26);
}

/* V10, of an instruction that writes x2 */
static u32 stack_rule(const Spot *s) {
    u32 class = s->class & CLASS;
    if (is_stack_pair(s->bundle, s->place) || ((s->before & 1) && is_stack_pair(s->bundle, s->place - 4)))
        return 0;
    return class != WIDE_JAL && class != WIDE_JUMP && is_stack_pair(s->bundle, end_of(s)) ? 0 : 10;
}

/* The lowest rule that it breaks, or 0. */
INLINE u32 rule_of(const Spot *s, int format, bool is_last) {
    if (s->place == 14 && (spot_half(s) & 3) == 3)
        return (spot_half(s) & 0x1c) == 0x1c ? 1 : 2;
    u32 rule = class_rule(s, format);
    if ((s->class & WRITES_RESERVED) && rule != 1)
        return 4;
    if (rule == 0 && is_last && end_of(s) == 16 && !may_end(s->class))
        return 8;
    return rule == 0 && format == 2 && (s->class & WRITES_STACK) ? stack_rule(s) : rule;
}

INLINE void scan_bundle(const Region *r, u32 offset, int format, bool is_last, Findings *findings) {
    Spot s = {.region = r, .bundle = r->code + offset, .address = r->base + offset};
    for (; s.place < 16; s.place = end_of(&s)) {
        s.class = class_of(spot_half(&s), format);
        if (s.class > WIDE_PLAIN || is_last) {
            u32 rule = rule_of(&s, format, is_last);
            if (rule != 0)
                add_finding(findings, r, s.address + s.place, rule);
            if (rule == 1 || rule == 2)
                return;
        }
        s.before = s.before << 1 | (s.class & 1);
    }
    if (s.place > 16)
        add_finding(findings, r, s.address + 14, 2);
}

static void scan_last(const Region *r, int format, Findings *findings) { scan_bundle(r, r->size - 16, format, true, findings); }

/* Gates are in rising order, so one is looked for from where the one before was found. */
INLINE void scan_code(const Region *r, int format, Findings *findings) {
    u32 gate = 0;
    for (u32 offset = 0; offset < r->size; offset += 16) {
        if (gate < r->gate_count && word_at(r->gates + 8 * gate) == r->base + offset) {
            gate++;
            if (memcmp(r->code + offset, stub, 16) != 0)
                add_finding(findings, r, r->base + offset, 9);
        } else if (offset == r->size - 16)
            scan_last(r, format, findings);
        else
            scan_bundle(r, offset, format, false, findings);
    }
}

static void scan_region(const Region *r, int format, Findings *findings) {
    if (format == 1)
        scan_code(r, 1, findings);
    else
        scan_code(r, 2, findings);
}
