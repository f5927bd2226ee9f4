
/* ---- The calls of sfi.h */

/* The address that the module has for a field of its own memory. */
#define OWN(field) (LINKED_STACK - MODULE_STACK + (uint64_t)offsetof(struct own_memory, field))

/* Makes the module anew, which sees the bytes and the array. What lies beyond MOST bytes no call looks at: no image has them. */
static void begin(struct call *call, const uint8_t *bytes, size_t length, void *array, size_t size) {
    memset(call, 0, sizeof *call);
    call->image = bytes;
    call->length = length;
    call->own = (struct view){(uint8_t *)&call->memory, LINKED_STACK - MODULE_STACK, sizeof call->memory};
    call->array = (struct view){array, ARRAY_AT, size};
    Z_sfi_instantiate(&call->module);
    if (*Z_sfiZ___heap_base(&call->module) > OWN(stream))
        abort(); /* the module's constants have no room */
}

static size_t at_most(size_t length, size_t most) {
    return length < most ? length : most;
}

uint32_t sfi_c_version(void) {
    struct call call;
    begin(&call, NULL, 0, NULL, 0);
    return Z_sfiZ_sfi_c_version(&call.module);
}

void sfi_c_begin(struct sfi_stream *stream) {
    struct call call;
    begin(&call, NULL, 0, NULL, 0);
    Z_sfiZ_sfi_c_begin(&call.module, OWN(stream));
    *stream = call.memory.stream;
}

void sfi_c_feed(struct sfi_stream *stream, const uint8_t *bytes, size_t length) {
    struct call call;
    for (size_t piece; length > 0; bytes += piece, length -= piece) {
        piece = at_most(length, MOST);
        begin(&call, bytes, piece, NULL, 0);
        call.memory.stream = *stream;
        Z_sfiZ_sfi_c_feed(&call.module, OWN(stream), IMAGE_AT, piece);
        *stream = call.memory.stream;
    }
}

uint32_t sfi_c_end(const struct sfi_stream *stream, struct sfi_verdict *verdict) {
    struct call call;
    begin(&call, NULL, 0, NULL, 0);
    call.memory.stream = *stream;
    uint32_t status = Z_sfiZ_sfi_c_end(&call.module, OWN(stream), OWN(verdict));
    *verdict = call.memory.verdict;
    return status;
}

bool sfi_c_refused(const struct sfi_stream *stream) {
    struct call call;
    begin(&call, NULL, 0, NULL, 0);
    call.memory.stream = *stream;
    return Z_sfiZ_sfi_c_refused(&call.module, OWN(stream));
}

/* Not the module's sfi_c_check, which says the same by vectors, which C has none of. */
uint32_t sfi_c_check(const uint8_t *image, size_t length, struct sfi_verdict *verdict) {
    struct sfi_stream stream;
    sfi_c_begin(&stream);
    sfi_c_feed(&stream, image, length);
    return sfi_c_end(&stream, verdict);
}

uint32_t sfi_c_findings(const uint8_t *image, size_t length, struct sfi_finding *array, size_t capacity,
                        struct sfi_verdict *verdict) {
    struct call call;
    capacity = at_most(capacity, MOST / sizeof *array);
    length = at_most(length, MOST);
    begin(&call, image, length, array, capacity * sizeof *array);
    uint32_t status = Z_sfiZ_sfi_c_findings(&call.module, IMAGE_AT, length, ARRAY_AT, capacity, OWN(verdict));
    *verdict = call.memory.verdict;
    return status;
}

uint32_t sfi_c_part(const uint8_t *image, size_t length, uint32_t number, struct sfi_part *part) {
    struct call call;
    length = at_most(length, MOST);
    begin(&call, image, length, NULL, 0);
    uint32_t status = Z_sfiZ_sfi_c_part(&call.module, IMAGE_AT, length, number, OWN(part));
    if (status == SFI_FOUND) {
        const uint32_t *fields = call.memory.part.fields;
        *part = (struct sfi_part){fields[0], fields[1], fields[2], fields[3], fields[4], fields[5], fields[6], fields[7],
                                  (size_t)call.memory.part.code_offset, (size_t)call.memory.part.init_offset};
    }
    return status;
}

uint32_t sfi_c_gate(const uint8_t *image, size_t length, uint32_t number, uint32_t index, struct sfi_gate *gate) {
    struct call call;
    length = at_most(length, MOST);
    begin(&call, image, length, NULL, 0);
    uint32_t status = Z_sfiZ_sfi_c_gate(&call.module, IMAGE_AT, length, number, index, OWN(gate));
    if (status == SFI_FOUND)
        *gate = call.memory.gate;
    return status;
}

uint32_t sfi_c_gates(const uint8_t *image, size_t length, uint32_t number, struct sfi_gate *array, size_t capacity) {
    struct call call;
    length = at_most(length, MOST);
    capacity = at_most(capacity, MOST / sizeof *array);
    begin(&call, image, length, array, capacity * sizeof *array);
    return Z_sfiZ_sfi_c_gates(&call.module, IMAGE_AT, length, number, ARRAY_AT, capacity);
}

/* The image is the array here, since it is written. */
uint32_t sfi_c_move(uint8_t *image, size_t length, uint32_t number, uint32_t code_base, uint32_t data_base) {
    struct call call;
    length = at_most(length, MOST);
    begin(&call, NULL, 0, image, length);
    return Z_sfiZ_sfi_c_move(&call.module, ARRAY_AT, length, number, code_base, data_base);
}

static struct module_part in_module(const struct sfi_part *part) {
    return (struct module_part){{part->format, part->code_base, part->code_size, part->data_base, part->data_size,
                                 part->start, part->gates, part->init_size}, part->code_offset, part->init_offset};
}

bool sfi_c_apart(const struct sfi_part *one, const struct sfi_part *other) {
    struct call call;
    begin(&call, NULL, 0, NULL, 0);
    call.memory.part = in_module(one);
    call.memory.other_part = in_module(other);
    return Z_sfiZ_sfi_c_apart(&call.module, OWN(part), OWN(other_part));
}

/* ---- A program */

#ifdef SUYGAPID_CHECK_MAIN
#include <stdio.h>

static void print_verdict(const struct sfi_verdict *verdict) {
    static const char *const faults[] = {"", "Magic", "Count", "Short", "Code", "Data", "GuardRoom", "Start", "Gates", "Init",
                                         "Overlap", "Trailing"};
    unsigned fault = (unsigned)verdict->layout_fault;
    if (verdict->status == SFI_ACCEPTED)
        printf("accepted sandboxes=%u bundles=%u\n", (unsigned)verdict->sandboxes, (unsigned)verdict->bundles);
    else if (verdict->status == SFI_REFUSED)
        printf("refused findings=%u first=V%u sandbox=%u at=%08x\n", (unsigned)verdict->findings, (unsigned)verdict->first.rule,
               (unsigned)verdict->first.sandbox, (unsigned)verdict->first.address);
    else
        printf("layout fault %u %s\n", fault, fault < sizeof faults / sizeof *faults ? faults[fault] : "");
}

int main(void) {
    static uint8_t piece[1 << 16];
    struct sfi_stream stream;
    struct sfi_verdict verdict;
    sfi_c_begin(&stream);
    for (size_t count; (count = fread(piece, 1, sizeof piece, stdin)) > 0;)
        sfi_c_feed(&stream, piece, count);
    if (ferror(stdin))
        return 5;
    uint32_t status = sfi_c_end(&stream, &verdict);
    print_verdict(&verdict);
    return fflush(stdout) == 0 ? (int)status : 5;
}
#endif
