/* Gates without a trap: in the place of a listed gate's ecall stands a jump to a slot, one for each gate, in a
   page of the host's own that lies near the sandbox's code; board.S goes on from there. One word is written, and
   only where the image has an ecall: in words each can be jumped to, and has to be the call. */
#include "host.h"
#include "internal.h"

enum { SLOT = 64, ECALL = 0x73, JAL = 0x6f, JAL_REACH = 1 << 20 };
_Static_assert(SFI_DEVICE_GATES_MOST * SLOT <= PAGE, "a page has a slot for each gate");
_Static_assert(offsetof(struct sfi_device_frame, called) == FRAME_CALLED, "board.S");

/* board.S */
extern const uint32_t slot[], slot_back[], slot_jump[], slot_end[];

static uint32_t pages[SANDBOXES_MOST];  /* where each sandbox's slots are; 0 where it has none */
static struct world *world;             /* whose sandbox runs, and the sandbox */
static struct sfi_device_sandbox *caller;

/* ---- Where slots are */

static bool meet(uint64_t from, uint64_t to, uint32_t page) {
    return from < (uint64_t)page + PAGE && to > page;
}

static bool is_free(const struct world *of, uint32_t page) {
    if (page < PAGE || page > UINT32_MAX - 2 * PAGE || meet(RAM, HOST_END, page))
        return false;
    for (uint32_t number = 0; number < of->count; number++) {
        const struct sfi_device_part *part = &of->plugins[number].sandbox.part;
        uint64_t data_end = (uint64_t)part->data_base + part->data_size;
        if (part->format == SFI_DEVICE_FORMAT_OF_SINGLE_MASKS && meet(0, (uint64_t)part->data_size + SFI_DEVICE_GUARD_ZONE, page))
            return false;
        if (meet(part->code_base, (uint64_t)part->code_base + part->code_size, page) ||
            meet(part->data_base - SFI_DEVICE_GUARD_ZONE, data_end + SFI_DEVICE_GUARD_ZONE, page) || pages[number] == page)
            return false;
    }
    return true;
}

/* The nearest page below or above the code that is free, or 0. A jump reaches 1 MiB. */
static uint32_t page_for(const struct world *of, const struct sfi_device_part *part) {
    uint32_t below = part->code_base / PAGE * PAGE, above = (part->code_base + part->code_size - 1) / PAGE * PAGE;
    for (uint32_t away = PAGE; away < JAL_REACH; away += PAGE) {
        if (is_free(of, below - away))
            return below - away;
        if (is_free(of, above + away))
            return above + away;
    }
    return 0;
}

/* ---- Springboards */

/* Unprivileged manual, "RV32I", the format J. */
static uint32_t jump(uint32_t from, uint32_t to) {
    uint32_t offset = to - from;
    return (offset >> 20 & 1) << 31 | (offset >> 1 & 0x3ff) << 21 | (offset >> 11 & 1) << 20 |
           (offset >> 12 & 0xff) << 12 | JAL;
}

static bool is_near(uint32_t from, uint32_t to) {
    return to - from + JAL_REACH - PAGE < 2 * (JAL_REACH - PAGE);
}

static void put_springboard(uint32_t number, const struct sfi_device_part *part, uint32_t gate, uint8_t *page) {
    uint32_t address = part->gates[gate].address, at = pages[number] + gate * SLOT;
    if (sfi_device_word_at(part->code + (address - part->code_base)) != ECALL || !is_near(address, at))
        return;
    uint32_t *words = (uint32_t *)(page + gate * SLOT), end = (uint32_t)(slot_jump - slot);
    memcpy(words, slot, (size_t)((const uint8_t *)slot_end - (const uint8_t *)slot));
    words[end] = jump(at + 4 * end, address + ECALL_SIZE);
    *(uint32_t *)sfi_device_sv32_at(&space, address) = jump(address, at);
}

void put_springboards(struct world *of) {
    world = of;
    for (uint32_t number = 0; number < of->count; number++) {
        const struct sfi_device_part *part = &of->plugins[number].sandbox.part;
        pages[number] = page_for(of, part);
        if (pages[number] == 0)
            continue;
        uint8_t *page = sfi_device_sv32_page_of_code(&space, pages[number]);
        if (page == NULL) {
            pages[number] = 0;
            continue;
        }
        for (uint32_t gate = 0; gate < part->gate_count; gate++)
            put_springboard(number, part, gate, page);
    }
}

/* ---- Calls */

void sfi_device_will_run(struct sfi_device_sandbox *sandbox) {
    caller = sandbox;
}

uint32_t board_call(uint32_t back) {
    const struct sfi_device_gate *gate = &caller->part.gates[back % PAGE / SLOT];
    uint32_t *x = caller->frame.x;
    struct sfi_device_call call = {gate->service, x[A0], x[A1]};
    enum sfi_device_outcome outcome = sfi_device_serve(&world->firmware, caller, &call);
    if (outcome == SFI_DEVICE_GOES_ON)
        return BOARD_AGAIN;
    if (outcome != SFI_DEVICE_REPLIED) {
        caller->frame.pc = gate->address;
        sfi_device_take_answer(caller, &call, outcome);
        return BOARD_LEAVES;
    }
    x[A0] = call.a0;
    x[A1] = call.a1;
    return BOARD_REPLIED;
}

/* Of the instructions that a slot's own jump is, and the jump to it, the sandbox's steps have the one that is
   done, if the call has its reply; else it is made anew. */
void sfi_device_leave_slot(struct sfi_device_sandbox *sandbox) {
    uint32_t page = pages[number_of(world, sandbox)], offset = sandbox->frame.pc - page;
    if (page == 0 || offset >= PAGE)
        return;
    sandbox->frame.pc = sandbox->part.gates[offset / SLOT].address;
    if (offset % SLOT == 0)
        sandbox->steps--;
    if (offset % SLOT == 4 * (uint32_t)(slot_jump - slot)) {
        sandbox->frame.pc += ECALL_SIZE;
        sandbox->steps++;
    }
}
