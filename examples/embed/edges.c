/*
 * What is written and what isn't, where the array is too small, empty, or larger than it need be:
 *
 *     edges STATUS FAULT SANDBOXES BUNDLES FINDINGS SANDBOX ADDRESS RULE < IMAGE        # the fields of its verdict
 *
 * It says so of the image, and that each beginning of one is no image by fault 3, Short. Sandboxes and gates are asked for
 * in all of these, too.
 */
#include "expect.h"

enum { ROOM = 64 };

/* A call with room for `capacity` findings, between two marked elements. */
static void try_capacity(const uint8_t *image, size_t length, const struct sfi_verdict *wanted, size_t capacity,
                         const struct sfi_finding *all) {
    struct sfi_finding array[ROOM + 2];
    struct sfi_verdict verdict[3], alone;
    memset(array, MARK, sizeof array);
    memset(verdict, MARK, sizeof verdict);
    memset(&alone, MARK, sizeof alone);
    uint32_t status = sfi_c_findings(image, length, array + 1, capacity, verdict + 1);
    size_t written = wanted->findings < capacity ? wanted->findings : capacity;
    expect(status == wanted->status, "status", capacity);
    expect(!memcmp(verdict + 1, wanted, sizeof *wanted), "verdict", capacity);
    expect(is_marked(array, sizeof *array), "written before the array", capacity);
    expect(!memcmp(array + 1, all, written * sizeof *array), "findings", capacity);
    expect(is_marked(array + 1 + written, (ROOM + 1 - written) * sizeof *array), "written after the last finding", capacity);
    expect(is_marked(verdict, sizeof *verdict) && is_marked(verdict + 2, sizeof *verdict), "written around the verdict", capacity);
    expect(sfi_c_check(image, length, &alone) == status && !memcmp(&alone, wanted, sizeof alone), "sfi_c_check", capacity);
    if (written)
        expect(!memcmp(array + 1, &wanted->first, sizeof *array), "first finding", capacity);
}

/* The gates of a sandbox at once, to arrays with each room up to three more than it has, between two marked elements. */
static void try_gates(const uint8_t *image, size_t length, uint32_t number, uint32_t count) {
    struct sfi_gate gate, array[ROOM + 5]; /* a sandbox has at most ROOM gates */
    for (size_t capacity = 0; capacity <= count + 3; capacity++) {
        size_t written = count < capacity ? count : capacity;
        memset(array, MARK, sizeof array);
        expect(sfi_c_gates(image, length, number, array + 1, capacity) == SFI_FOUND, "the gates of a sandbox", capacity);
        for (size_t index = 0; index < written; index++) {
            sfi_c_gate(image, length, number, index, &gate);
            expect(!memcmp(array + 1 + index, &gate, sizeof gate), "one of the gates", index);
        }
        expect(is_marked(array, sizeof *array), "written before the gates", capacity);
        expect(is_marked(array + 1 + written, (ROOM + 4 - written) * sizeof *array), "written after the gates", capacity);
    }
}

/* A gate that the image doesn't have. */
static void try_no_gate(const uint8_t *image, size_t length, uint32_t number, uint32_t index) {
    struct sfi_gate gate;
    memset(&gate, MARK, sizeof gate);
    expect(sfi_c_gate(image, length, number, index, &gate) == SFI_BEYOND, "a gate beyond", index);
    expect(is_marked(&gate, sizeof gate), "written for a gate beyond", index);
}

/* A sandbox that the image doesn't have. */
static void try_no_part(const uint8_t *image, size_t length, uint32_t number) {
    struct sfi_part part;
    struct sfi_gate gates[3];
    memset(&part, MARK, sizeof part);
    memset(gates, MARK, sizeof gates);
    expect(sfi_c_part(image, length, number, &part) == SFI_BEYOND, "a sandbox beyond", number);
    expect(is_marked(&part, sizeof part), "written for a sandbox beyond", number);
    expect(sfi_c_gates(image, length, number, gates, 3) == SFI_BEYOND, "gates of a sandbox beyond", number);
    expect(is_marked(gates, sizeof gates), "written for gates of a sandbox beyond", number);
    try_no_gate(image, length, number, 0);
    try_no_gate(image, length, number, UINT32_MAX);
}

/* Each gate of a sandbox, and some that it doesn't have, between two marked elements; how many gates it has. */
static uint32_t try_each_gate(const uint8_t *image, size_t length, uint32_t number) {
    struct sfi_gate gate[3];
    uint32_t index = 0;
    memset(gate, MARK, sizeof gate);
    for (; sfi_c_gate(image, length, number, index, gate + 1) == SFI_FOUND; index++) {
        expect(is_marked(gate, sizeof *gate) && is_marked(gate + 2, sizeof *gate), "written around the gate", index);
        memset(gate, MARK, sizeof gate);
    }
    try_no_gate(image, length, number, index);
    try_no_gate(image, length, number, UINT32_MAX);
    return index;
}

/* Each sandbox with its gates, and some that the image doesn't have, between two marked elements. */
static void try_parts(const uint8_t *image, size_t length) {
    size_t end = 8; /* after the magic and the count */
    uint32_t number = 0;
    struct sfi_part part[3];
    memset(part, MARK, sizeof part);
    for (; sfi_c_part(image, length, number, part + 1) == SFI_FOUND; number++) {
        expect(is_marked(part, sizeof *part) && is_marked(part + 2, sizeof *part), "written around the sandbox", number);
        expect(part[1].code_offset == end + 28 + 8 * part[1].gates, "where the code is", number);
        expect(part[1].init_offset == part[1].code_offset + part[1].code_size, "where the first data bytes are", number);
        end = part[1].init_offset + part[1].init_size;
        expect(try_each_gate(image, length, number) == part[1].gates, "count of gates", number);
        try_gates(image, length, number, part[1].gates);
        memset(part, MARK, sizeof part);
    }
    expect(number > 0 && end == length, "the last sandbox's end", number);
    try_no_part(image, length, number);
    try_no_part(image, length, UINT32_MAX);
}

/* Nothing is told of bytes that are no image. */
static void try_none(const uint8_t *bytes, size_t length) {
    struct sfi_part part;
    struct sfi_gate gates[3];
    memset(&part, MARK, sizeof part);
    memset(gates, MARK, sizeof gates);
    expect(sfi_c_part(bytes, length, 0, &part) == SFI_NO_IMAGE && is_marked(&part, sizeof part), "a sandbox of none", length);
    expect(sfi_c_gate(bytes, length, 0, 0, gates) == SFI_NO_IMAGE && is_marked(gates, sizeof gates), "a gate of none", length);
    for (size_t capacity = 0; capacity <= 3; capacity++)
        expect(sfi_c_gates(bytes, length, 0, gates, capacity) == SFI_NO_IMAGE && is_marked(gates, sizeof gates),
               "gates of none", length);
}

/* Each beginning of an image is cut short. */
static void try_beginnings(const uint8_t *image, size_t length) {
    for (size_t beginning = 0; beginning < length; beginning++) {
        uint8_t *cut = copy_of(image, beginning);
        struct sfi_finding all[ROOM];
        struct sfi_verdict verdict;
        memset(&verdict, MARK, sizeof verdict);
        memset(all, MARK, sizeof all);
        expect(sfi_c_findings(cut, beginning, all, ROOM, &verdict) == SFI_NO_IMAGE, "status of a beginning", beginning);
        expect(!memcmp(&verdict, &cut_short, sizeof verdict), "verdict on a beginning", beginning);
        expect(is_marked(all, sizeof all), "findings of a beginning", beginning);
        try_none(cut, beginning);
        free(cut);
    }
}

/* The library is of the header's version. */
static void try_version(void) {
    unsigned major, minor, patch;
    int read = sscanf(SFI_VERSION, "%u.%u.%u", &major, &minor, &patch);
    expect(read == 3 && SFI_VERSION_NUMBER == major * 65536 + minor * 256 + patch, "the header's version", SFI_VERSION_NUMBER);
    expect(sfi_c_version() == SFI_VERSION_NUMBER, "the library's version", sfi_c_version());
}

int main(int argc, char **argv) {
    static uint8_t image[MOST_LENGTH];
    size_t length = fread(image, 1, sizeof image, stdin);
    if (argc != 1 + FIELDS)
        return 6;
    struct sfi_verdict wanted = verdict_of(argv + 1), verdict;
    struct sfi_finding all[ROOM];
    try_version();
    sfi_c_findings(image, length, all, ROOM, &verdict);
    for (size_t capacity = 0; capacity <= ROOM; capacity++)
        try_capacity(image, length, &wanted, capacity, all);
    if (wanted.status == SFI_NO_IMAGE) {
        try_none(image, length);
    } else {
        try_parts(image, length);
        try_beginnings(image, length);
    }
    return ended("edges");
}
