/* The call at a gate, on its way to the firmware's services and back: a reply changes a0, a1, the caller's own data and its
   pc, and nothing else of the caller. */
#include "internal.h"
#include "privileged.h"

uint8_t *sfi_device_own_bytes(const struct sfi_device_sandbox *sandbox, uint32_t address, uint32_t length) {
    const struct sfi_device_part *part = &sandbox->part;
    if (address < part->data_base || (uint64_t)address + length > (uint64_t)part->data_base + part->data_size)
        return NULL;
    return (uint8_t *)address;
}

enum sfi_device_outcome sfi_device_exit(void *host, struct sfi_device_sandbox *caller, struct sfi_device_call *call) {
    (void)host, (void)caller, (void)call;
    return SFI_DEVICE_LEFT;
}

enum sfi_device_outcome sfi_device_yield(void *host, struct sfi_device_sandbox *caller, struct sfi_device_call *call) {
    (void)host, (void)caller, (void)call;
    return SFI_DEVICE_YIELDED;
}

const struct sfi_device_gate sfi_device_no_gate = {UINT32_MAX, 0};

/* Makes the gate at pc the last one. False where there is none. By halves: of an accepted image each lies above the one before
   (docs/IMAGE.md, layout fault 8). */
static __attribute__((noinline)) bool find_gate(struct sfi_device_sandbox *caller) {
    const struct sfi_device_part *part = &caller->part;
    const struct sfi_device_gate *gate = part->gates; /* and so many from it on may be the one */
    for (uint32_t left = part->gate_count; left > 1;) {
        uint32_t half = left / 2;
        if (gate[half].address <= caller->frame.pc)
            gate += half;
        left -= half;
    }
    if (part->gate_count == 0 || gate->address != caller->frame.pc)
        return false;
    caller->frame.last_gate = gate;
    caller->frame.last_gate_number = (uint32_t)(gate - part->gates);
    return true;
}

enum sfi_device_outcome sfi_device_serve(const struct sfi_device_firmware *firmware, struct sfi_device_sandbox *caller,
                                         struct sfi_device_call *call) {
    if (call->service < firmware->service_count && firmware->services[call->service] != NULL)
        return firmware->services[call->service](firmware->host, caller, call);
    call->a0 = UINT32_MAX;
    return SFI_DEVICE_REPLIED;
}

static void reply(struct sfi_device_sandbox *caller, const struct sfi_device_call *call) {
    caller->frame.pc += ECALL_SIZE;
    caller->frame.x[A0] = call->a0;
    caller->frame.x[A1] = call->a1;
}

bool sfi_device_take_answer(struct sfi_device_sandbox *caller, const struct sfi_device_call *call, enum sfi_device_outcome outcome) {
    if (outcome == SFI_DEVICE_LEFT) {
        caller->state = SFI_DEVICE_EXITED;
        caller->exit_code = call->a0;
        return false;
    }
    reply(caller, call);
    return outcome == SFI_DEVICE_REPLIED;
}

/* Of accepted code each call is at a gate. */
static __attribute__((noinline)) struct sfi_device_frame *stop(struct sfi_device_sandbox *caller) {
    sfi_device_stop_by_trap(caller, CAUSE_ECALL);
    return NULL;
}

/* What follows where there is no reply. */
static __attribute__((noinline)) struct sfi_device_frame *go_on_or_end(struct sfi_device_sandbox *caller, const struct sfi_device_call *call,
                                                                       enum sfi_device_outcome outcome) {
    if (outcome != SFI_DEVICE_GOES_ON) {
        sfi_device_take_answer(caller, call, outcome);
        return NULL;
    }
    caller->steps--; /* the ecall is counted once */
    return &caller->frame;
}

struct sfi_device_frame *sfi_device_answer_call(struct sfi_device_frame *frame) {
    struct sfi_device_sandbox *caller = (struct sfi_device_sandbox *)((uint8_t *)frame - offsetof(struct sfi_device_sandbox, frame));
    if (frame->last_gate->address != frame->pc && !find_gate(caller))
        return stop(caller);
    const struct sfi_device_gate *gate = frame->last_gate;
    struct sfi_device_call call = {gate->service, frame->x[A0], frame->x[A1]};
    enum sfi_device_outcome outcome = sfi_device_serve(frame->firmware, caller, &call);
    if (outcome != SFI_DEVICE_REPLIED && outcome != SFI_DEVICE_YIELDED)
        return go_on_or_end(caller, &call, outcome);
    reply(caller, &call);
    return outcome == SFI_DEVICE_REPLIED ? frame : NULL;
}

__attribute__((weak, alias("sfi_device_answer_call"))) struct sfi_device_frame *sfi_device_answer(struct sfi_device_frame *frame);
