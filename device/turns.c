/* One turn of a sandbox. */
#include "internal.h"
#include "privileged.h"

_Static_assert(offsetof(struct sfi_device_frame, pc) == FRAME_PC, "switch.S");
_Static_assert(offsetof(struct sfi_device_frame, host_stack) == FRAME_HOST_STACK, "switch.S");
_Static_assert(offsetof(struct sfi_device_frame, retired_before) == FRAME_BEFORE, "switch.S");
_Static_assert(offsetof(struct sfi_device_frame, retired_after) == FRAME_AFTER, "switch.S");
_Static_assert(offsetof(struct sfi_device_frame, firmware) == FRAME_FIRMWARE, "switch.S");

/* Answers whether the turn goes on after an interrupt or exception: after no other cause than these. A
   processor may tell of an access that failed by an interrupt, or by an NMI. */
static bool goes_on(const struct sfi_device_firmware *firmware, struct sfi_device_sandbox *sandbox, uint32_t cause) {
    if (cause == CAUSE_TIMER || cause == CAUSE_GATE)
        return false;
    if (cause & CAUSE_INTERRUPT && firmware->answer_interrupt && firmware->answer_interrupt(cause & ~CAUSE_INTERRUPT))
        return true;
    sfi_device_stop_by_trap(sandbox, cause);
    sandbox->steps -= cause == CAUSE_BREAKPOINT; /* QEMU counts it; a trap is no step */
    return false;
}

void sfi_device_turn(const struct sfi_device_firmware *firmware, struct sfi_device_sandbox *sandbox, uint32_t ticks) {
    uint32_t cause;
    if (sandbox->state != SFI_DEVICE_READY)
        return;
    sandbox->frame.firmware = firmware;
    sandbox->frame.last_gate = sandbox->part.gate_count == 0 ? &sfi_device_no_gate : &sandbox->part.gates[sandbox->frame.last_gate_number];
    if (firmware->interrupt_after)
        firmware->interrupt_after(ticks);
    if (sfi_device_will_run)
        sfi_device_will_run(sandbox);
    do {
        cause = sfi_device_enter(&sandbox->frame);
        uint32_t retired = sandbox->frame.retired_after - sandbox->frame.retired_before;
        sandbox->steps += retired - sfi_device_switch_instructions;
        if (sfi_device_has_run)
            sfi_device_has_run(&sandbox->frame);
        if (sfi_device_leave_slot)
            sfi_device_leave_slot(sandbox);
    } while (goes_on(firmware, sandbox, cause));
}
