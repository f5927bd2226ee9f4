/* The registers of a sandbox at an entry. */
#include "internal.h"

enum { BUNDLE = 16, WORD = 4, LEAST_DATA = 256 };

uint32_t sfi_device_word_at(const uint8_t *bytes) {
    return bytes[0] | (uint32_t)bytes[1] << 8 | (uint32_t)bytes[2] << 16 | (uint32_t)bytes[3] << 24;
}

bool sfi_device_are_same(const uint8_t *one, const uint8_t *other, uint32_t length) {
    for (uint32_t k = 0; k < length; k++)
        if (one[k] != other[k])
            return false;
    return true;
}

bool sfi_device_is_data(uint32_t base, uint32_t size) {
    bool is_power = size >= LEAST_DATA && (size & (size - 1)) == 0;
    return is_power && base % size == 0 && base >= SFI_DEVICE_GUARD_ZONE &&
           (uint64_t)base + size + SFI_DEVICE_GUARD_ZONE <= (uint64_t)UINT32_MAX + 1;
}

static bool is_in_words(const struct sfi_device_part *part) {
    return part->format == SFI_DEVICE_FORMAT_OF_WORDS || part->format == SFI_DEVICE_FORMAT_OF_SINGLE_MASKS;
}

/* The bytes of a unit of code: a sandbox is entered at multiples of it. */
static uint32_t unit_of(const struct sfi_device_part *part) {
    return is_in_words(part) ? WORD : BUNDLE;
}

enum { STACK_TOP = 16 }; /* x2 at a start: so many bytes below the data's end */

/* The registers as a World of `sfi run` sets them (docs/GATES.md, "Turns"); all others are 0. */
static void set_registers(struct sfi_device_sandbox *sandbox, uint32_t pc) {
    const struct sfi_device_part *part = &sandbox->part;
    struct sfi_device_frame *frame = &sandbox->frame;
    memset(frame, 0, sizeof *frame);
    frame->pc = pc;
    frame->x[SP] = part->data_base + part->data_size - STACK_TOP;
    if (is_in_words(part)) {
        frame->x[3] = frame->x[4] = frame->x[29] = part->data_base;
        frame->x[30] = pc;
    }
    frame->x[24] = part->code_base;
    frame->x[25] = part->code_size - unit_of(part);
    frame->x[26] = part->data_base;
    frame->x[27] = part->data_size - 1 + (part->format == SFI_DEVICE_FORMAT_OF_SINGLE_MASKS ? part->data_base : 0);
}

void sfi_device_empty(struct sfi_device_sandbox *sandbox) {
    memset(sandbox, 0, sizeof *sandbox);
}

void sfi_device_enter_start(struct sfi_device_sandbox *sandbox, const struct sfi_device_part *part) {
    const struct sfi_device_part whole = *part; /* it may be that of the sandbox */
    sfi_device_empty(sandbox);
    sandbox->part = whole;
    set_registers(sandbox, whole.start);
    sandbox->state = SFI_DEVICE_READY;
}

/* The first gate of service 0, exit in a console: what a function returns in a0 then is the code. Or 0. */
static uint32_t exit_gate(const struct sfi_device_part *part) {
    for (uint32_t k = 0; k < part->gate_count; k++)
        if (part->gates[k].service == 0)
            return part->gates[k].address;
    return 0;
}

/* How many bytes of its data above the stack a function may reach: the claim `.room`, the last import entry of a table
   of names (docs/IMAGE.md, "Names"). The image's own bytes tell, which no sandbox can write. */
static uint32_t room_of(const struct sfi_device_part *part) {
    static const uint8_t name[] = {5, '.', 'r', 'o', 'o', 'm'}, magic[] = {'S', 'F', 'I', 'N'};
    enum { NUMBER = 4, TABLE_END = 16, CLAIM = NUMBER + sizeof name + TABLE_END };
    if (part->first_count < CLAIM)
        return 0;
    const uint8_t *claim = part->first + part->first_count - CLAIM;
    if (!sfi_device_are_same(claim + NUMBER, name, sizeof name) ||
        !sfi_device_are_same(claim + CLAIM - sizeof magic, magic, sizeof magic))
        return 0;
    uint32_t room = sfi_device_word_at(claim);
    return room <= part->data_size - STACK_TOP ? room : 0;
}

static bool can_enter(const struct sfi_device_sandbox *sandbox, uint32_t pc) {
    const struct sfi_device_part *part = &sandbox->part;
    uint32_t offset = pc - part->code_base;
    return (sandbox->state == SFI_DEVICE_EXITED || sandbox->state == SFI_DEVICE_TRAPPED) && offset < part->code_size &&
           offset % unit_of(part) == 0 && (!sfi_device_is_code_in_place || sfi_device_is_code_in_place(part));
}

bool sfi_device_enter_again(struct sfi_device_sandbox *sandbox, uint32_t pc, const uint32_t arguments[SFI_DEVICE_ARGUMENTS]) {
    if (!can_enter(sandbox, pc))
        return false;
    set_registers(sandbox, pc);
    sandbox->frame.x[SP] -= room_of(&sandbox->part);
    sandbox->frame.x[RA] = exit_gate(&sandbox->part);
    if (arguments)
        memcpy(&sandbox->frame.x[A0], arguments, SFI_DEVICE_ARGUMENTS * sizeof arguments[0]);
    sandbox->state = SFI_DEVICE_READY;
    return true;
}
