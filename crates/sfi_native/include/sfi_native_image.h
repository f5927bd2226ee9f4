/* The sandboxes of an accepted image that a host reads when it runs, in the place of a translation's: for native code without a
   compiler. A step that the code leaves to the host is decoded where it is done. Nothing of this file is proved. */
#ifndef SFI_NATIVE_IMAGE_H
#define SFI_NATIVE_IMAGE_H
#include <stddef.h>
#include "sfi_native_decode.h"
#ifdef SFI_TEXT
#error "SFI_TEXT has the sandboxes"
#endif

enum { SFI_SANDBOXES_MOST = 16, SFI_GATES_MOST = 64 };  /* docs/IMAGE.md, the layout */
enum { SFI_IMAGE_FRONT = 8, SFI_IMAGE_FIELDS = 28, SFI_IMAGE_GATE = 8 };  /* bytes */

/* What an image's bytes, which stay, have. A sandbox's first data stand directly behind its code there. */
struct sfi_image {
    struct sfi_sandbox sandboxes[SFI_SANDBOXES_MOST];
    struct sfi_native_gate gates[SFI_SANDBOXES_MOST][SFI_GATES_MOST];
    size_t count;
};

static const uint8_t *sfi_code_bytes(const struct sfi_sandbox *s) {
    return s->first_data - s->code_size;
}

/* Reads a sandbox. Returns where the next one begins, or NULL where it isn't there whole. */
static const uint8_t *sfi_read_sandbox(const uint8_t *at, const uint8_t *end, struct sfi_sandbox *s, struct sfi_native_gate *gates) {
    if (end - at < SFI_IMAGE_FIELDS)
        return NULL;
    memcpy(&s->code, at, SFI_IMAGE_FIELDS);
    at += SFI_IMAGE_FIELDS;
    const size_t size = (size_t)s->gates * SFI_IMAGE_GATE;
    if (s->gates > SFI_GATES_MOST || (size_t)(end - at) < size + s->code_size + s->init || s->code_size % s->unit || s->init > s->data_size)
        return NULL;
    memcpy(gates, at, size);
    s->gate = gates;
    s->first_data = at + size + s->code_size;
    return s->first_data + s->init;
}

/* Reads an image: whether it is one, as far as this host has to know. */
static int sfi_read_image(const uint8_t *bytes, size_t length, struct sfi_image *image) {
    const uint8_t *at = bytes + SFI_IMAGE_FRONT, *const end = bytes + length;
    sfi_u32 count;
    if (length < SFI_IMAGE_FRONT || memcmp(bytes, "SFI", 3) != 0)
        return 0;
    memcpy(&count, bytes + 4, sizeof count);
    image->count = count;
    for (size_t k = 0; at != NULL && k < count && count <= SFI_SANDBOXES_MOST; k++) {
        image->sandboxes[k].single = bytes[3] == 'S';
        image->sandboxes[k].unit = bytes[3] == 'W' || bytes[3] == 'S' ? 4 : 16;
        at = sfi_read_sandbox(at, end, &image->sandboxes[k], image->gates[k]);
    }
    return count <= SFI_SANDBOXES_MOST && at == end;
}

/* As that of sfi_native.h. An instruction of accepted code lies whole in its unit. */
static int sfi_step(const struct sfi_sandbox *s, struct sfi_hart *h, sfi_u32 *at) {
    const sfi_u32 offset = h->pc - s->code;
    const int is_there = offset < s->code_size && offset % 2 == 0 && (offset + 4 <= s->code_size || (sfi_code_bytes(s)[offset] & 3) != 3);
    static const uint8_t ecall[4] = { 0x73 };
    if (is_there && offset % 4 == 0 && memcmp(sfi_code_bytes(s) + offset, ecall, sizeof ecall) == 0) {  /* quickly: most turns end so */
        *at = h->pc;
        return SFI_CALL;
    }
    return sfi_step_by(is_there ? sfi_decode(sfi_code_bytes(s) + offset, h->pc) : sfi_no_row(), s, h, at);
}
#endif
