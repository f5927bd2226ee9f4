/* In the place of the checker where the loader has none: the sender has checked the image. Reads it (docs/IMAGE.md), with
   the tests that keep the loader within the image's bytes. */
#include "host.h"

struct reader {
    const uint8_t *at, *end;
    uint32_t fault; /* the first test that fails; 0 where none does */
};

static const uint8_t *take(struct reader *reader, uint32_t length) {
    static const uint8_t none[8];
    if ((uint32_t)(reader->end - reader->at) < length)
        reader->fault = SFI_FAULT_SHORT;
    if (reader->fault)
        return none;
    const uint8_t *bytes = reader->at;
    reader->at += length;
    return bytes;
}

static uint32_t take_word(struct reader *reader) {
    return sfi_device_word_at(take(reader, 4));
}

/* The number of the format of that magic, or 0. */
static uint32_t format_of(const uint8_t *magic) {
    if (magic[0] != 'S' || magic[1] != 'F' || magic[2] != 'I')
        return 0;
    return magic[3] == '1' ? 1 : magic[3] == '2' ? 2 : magic[3] == 'W' ? SFI_DEVICE_FORMAT_OF_WORDS :
           magic[3] == 'S' ? SFI_DEVICE_FORMAT_OF_SINGLE_MASKS : 0;
}

/* Answers how many sandboxes there are. */
static uint32_t take_head(struct reader *reader, uint32_t *format) {
    *format = format_of(take(reader, 4));
    if (!reader->fault && *format == 0)
        reader->fault = SFI_FAULT_MAGIC;
    uint32_t count = take_word(reader);
    if (!reader->fault && (count == 0 || count > IMAGE_SANDBOXES_MOST))
        reader->fault = SFI_FAULT_COUNT;
    return reader->fault ? 0 : count;
}

static void take_part(struct reader *reader, struct sfi_device_part *part) {
    part->code_base = take_word(reader);
    part->code_size = take_word(reader);
    part->data_base = take_word(reader);
    part->data_size = take_word(reader);
    part->start = take_word(reader);
    part->gate_count = take_word(reader);
    part->first_count = take_word(reader);
    if (part->gate_count > SFI_DEVICE_GATES_MOST)
        reader->fault = SFI_FAULT_GATES;
    if (part->first_count > part->data_size)
        reader->fault = SFI_FAULT_INIT;
    for (uint32_t index = 0; !reader->fault && index < part->gate_count; index++) {
        part->gates[index].address = take_word(reader);
        part->gates[index].service = take_word(reader);
    }
    part->code = take(reader, part->code_size);
    part->first = take(reader, part->first_count);
}

enum sfi_device_status sfi_device_check(const uint8_t *image, uint32_t length, void (*between)(void *),
                                        void *host, struct sfi_verdict *verdict) {
    struct reader reader = {image, image + length, 0};
    struct sfi_device_part part;
    (void)between, (void)host;
    for (uint32_t left = take_head(&reader, &part.format); !reader.fault && left > 0; left--)
        take_part(&reader, &part);
    *verdict = (struct sfi_verdict){.status = reader.fault ? SFI_NO_IMAGE : SFI_ACCEPTED, .layout_fault = reader.fault};
    return reader.fault ? SFI_DEVICE_NOT_ACCEPTED : SFI_DEVICE_DONE;
}

enum sfi_device_status sfi_device_tell(const uint8_t *image, uint32_t length, uint32_t number, struct sfi_device_part *part) {
    struct reader reader = {image, image + length, 0};
    if (number >= take_head(&reader, &part->format))
        return SFI_DEVICE_NO_SANDBOX;
    for (uint32_t before = 0; before <= number; before++)
        take_part(&reader, part);
    return SFI_DEVICE_DONE;
}
