/*
 * What is said of an image that comes in pieces, at its end and after each piece:
 *
 *     pieces STATUS FAULT SANDBOXES BUNDLES FINDINGS SANDBOX ADDRESS RULE < IMAGE        # the fields of its verdict
 *
 * It says so of the image by pieces of many sizes, and that each beginning of one is no image by fault 3, Short.
 */
#include "expect.h"

static const size_t sizes[] = {1, 4, 5, 7, 64, 65, 100, 292, 293, 1000};

/* Feeds a piece from memory of its own. */
static void feed(struct sfi_stream *stream, const uint8_t *bytes, size_t length) {
    uint8_t *piece = copy_of(bytes, length);
    sfi_c_feed(stream, piece, length);
    free(piece);
}

/* The verdict on the bytes so far, which is that on the same bytes in one piece. */
static struct sfi_verdict asked(const struct sfi_stream *stream, const uint8_t *bytes, size_t length) {
    struct sfi_verdict verdict[3], whole;
    memset(verdict, MARK, sizeof verdict);
    memset(&whole, MARK, sizeof whole);
    uint32_t status = sfi_c_end(stream, verdict + 1);
    expect(sfi_c_check(bytes, length, &whole) == status, "status of pieces", length);
    expect(!memcmp(verdict + 1, &whole, sizeof whole), "verdict on pieces", length);
    expect(is_marked(verdict, sizeof *verdict) && is_marked(verdict + 2, sizeof *verdict), "written around the verdict", length);
    if (status != SFI_NO_IMAGE || verdict[1].layout_fault != SFI_FAULT_SHORT)
        expect(sfi_c_refused(stream) == (status != SFI_ACCEPTED), "whether pieces are refused", length);
    return verdict[1];
}

/* The last verdict on bytes that come `size` at a time, to a stream that held others. It is asked for after each piece, too. */
static struct sfi_verdict verdict_by(size_t size, const uint8_t *bytes, size_t length) {
    struct sfi_stream stream[3];
    memset(stream, MARK, sizeof stream);
    sfi_c_begin(stream + 1);
    feed(stream + 1, bytes, 0);
    struct sfi_verdict verdict = asked(stream + 1, bytes, 0);
    bool was_refused = false;
    for (size_t at = 0; at < length;) {
        size_t piece = length - at < size ? length - at : size;
        feed(stream + 1, bytes + at, piece);
        at += piece;
        verdict = asked(stream + 1, bytes, at);
        expect(sfi_c_refused(stream + 1) || !was_refused, "refused pieces, and more", at);
        was_refused = sfi_c_refused(stream + 1);
    }
    expect(!was_refused || verdict.status != SFI_ACCEPTED, "accepted pieces", size);
    expect(is_marked(stream, sizeof *stream) && is_marked(stream + 2, sizeof *stream), "written around the stream", length);
    return verdict;
}

/* By pieces of each size the bytes have this verdict. */
static void try_sizes(const uint8_t *bytes, size_t length, const struct sfi_verdict *wanted) {
    for (size_t i = 0; i < sizeof sizes / sizeof *sizes; i++) {
        struct sfi_verdict verdict = verdict_by(sizes[i], bytes, length);
        expect(!memcmp(&verdict, wanted, sizeof verdict), wanted == &cut_short ? "a beginning by pieces" : "all by pieces", sizes[i]);
    }
}

int main(int argc, char **argv) {
    static uint8_t image[MOST_LENGTH];
    size_t length = fread(image, 1, sizeof image, stdin);
    if (argc != 1 + FIELDS)
        return 6;
    struct sfi_verdict wanted = verdict_of(argv + 1);
    try_sizes(image, length, &wanted);
    if (wanted.status != SFI_NO_IMAGE)
        for (size_t beginning = 0; beginning < length; beginning++)
            try_sizes(image, beginning, &cut_short);
    return ended("pieces");
}
