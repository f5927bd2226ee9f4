/* The names of an image (docs/IMAGE.md, "Names"): a claim of its author, on which nothing rests. */
#include "internal.h"

enum { NUMBERS = 16, ENTRY = 5 /* of an entry, before its name */, FIRST_VISIBLE = 33, LAST_VISIBLE = 126 };

/* The bytes of the exports, which the imports, three numbers and SFIN follow, up to the end of the first data bytes. NULL where
   there is no such table. Imports aren't looked at. */
static const uint8_t *exports_of(const struct sfi_device_part *part, uint32_t *size) {
    static const uint8_t magic[] = {'S', 'F', 'I', 'N'};
    if (part->first_count < NUMBERS)
        return NULL;
    uint32_t room = part->first_count - NUMBERS;
    const uint8_t *numbers = part->first + room;
    uint32_t exports = sfi_device_word_at(numbers + 4), imports = sfi_device_word_at(numbers + 8);
    if (!sfi_device_are_same(numbers + 12, magic, sizeof magic) || exports > room || imports > room - exports)
        return NULL;
    *size = exports;
    return numbers - imports - exports;
}

static bool is_visible(const uint8_t *name, uint32_t length) {
    for (uint32_t at = 0; at < length; at++)
        if (name[at] < FIRST_VISIBLE || name[at] > LAST_VISIBLE)
            return false;
    return length > 0;
}

/* Of an export, and no claim of the tools, whose names begin with a point. */
static bool is_in_code(const struct sfi_device_part *part, const struct sfi_device_function *export) {
    return export->name[0] != '.' && export->address - part->code_base < part->code_size;
}

bool sfi_device_function_at(const struct sfi_device_part *part, uint32_t address, struct sfi_device_function *function) {
    uint32_t left = 0;
    bool is_found = false;
    for (const uint8_t *entry = exports_of(part, &left); left > ENTRY && left - ENTRY >= entry[4];) {
        struct sfi_device_function one = {sfi_device_word_at(entry), entry[4], entry + ENTRY};
        left -= ENTRY + one.length;
        entry = one.name + one.length;
        if (!is_visible(one.name, one.length))
            return false;
        if (is_in_code(part, &one) && one.address <= address && (!is_found || one.address > function->address)) {
            *function = one;
            is_found = true;
        }
    }
    return is_found && left == 0;
}
