/* What stopped a sandbox, in the words of `sfi run`. */
#include "internal.h"
#include "privileged.h"

enum { OPCODE_LOAD = 0x03, C_LWSP = 2 };

static uint32_t bits(uint32_t word, unsigned lowest, unsigned count) {
    return word >> lowest & ((1u << count) - 1);
}

/* Unprivileged manual, "RV32I", loads and stores: their offsets are the immediates of the formats I
   and S. */
static uint32_t address_of_word(uint32_t word, const uint32_t x[]) {
    uint32_t upper = (uint32_t)((int32_t)word >> 25) << 5; /* bits 5 to 11, with the sign */
    uint32_t lower = bits(word, 0, 7) == OPCODE_LOAD ? bits(word, 20, 5) : bits(word, 7, 5);
    return x[bits(word, 15, 5)] + (upper | lower);
}

/* Unprivileged manual, "C" extension: c.lw and c.sw, and on the stack pointer c.lwsp and c.swsp. */
static uint32_t address_of_half(uint32_t half, const uint32_t x[]) {
    if (bits(half, 0, 2) == 0)
        return x[8 + bits(half, 7, 3)] +
               (bits(half, 10, 3) << 3 | bits(half, 6, 1) << 2 | bits(half, 5, 1) << 6);
    if (bits(half, 13, 3) == C_LWSP)
        return x[SP] + (bits(half, 12, 1) << 5 | bits(half, 4, 3) << 2 | bits(half, 2, 2) << 6);
    return x[SP] + (bits(half, 9, 4) << 2 | bits(half, 7, 2) << 6);
}

/* The first address of the load or store at pc. stval may be another one: where an access straddles
   two pages, it is the second page's. Code can't be read where it runs, so the instruction comes
   from the image. */
static uint32_t access_address(const struct sfi_device_sandbox *sandbox) {
    const uint8_t *instruction = sandbox->part.code + (sandbox->frame.pc - sandbox->part.code_base);
    uint32_t half = instruction[0] | instruction[1] << 8;
    if (bits(half, 0, 2) == 3)
        return address_of_word(sfi_device_word_at(instruction), sandbox->frame.x);
    return address_of_half(half, sandbox->frame.x);
}

/* Accepted code never meets Fetch or Illegal; `sfi run` knows no Interrupt. */
static const char *name_of(uint32_t cause) {
    if (cause & CAUSE_INTERRUPT)
        return "Interrupt";
    switch (cause) {
    case CAUSE_BREAKPOINT: return "Break";
    case CAUSE_LOAD_MISALIGNED: case CAUSE_LOAD_ACCESS: case CAUSE_LOAD_PAGE: return "Load";
    case CAUSE_STORE_MISALIGNED: case CAUSE_STORE_ACCESS: case CAUSE_STORE_PAGE: return "Store";
    case CAUSE_ILLEGAL: return "Illegal";
    default: return "Fetch";
    }
}

void sfi_device_stop_by_trap(struct sfi_device_sandbox *sandbox, uint32_t cause) {
    sandbox->state = SFI_DEVICE_TRAPPED;
    sandbox->trap = name_of(cause);
    bool accesses = sandbox->trap[0] == 'L' || sandbox->trap[0] == 'S';
    sandbox->trap_address = accesses ? access_address(sandbox) : sandbox->frame.pc;
}
