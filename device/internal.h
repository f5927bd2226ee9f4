/* What the library's own files share. */
#ifndef SFI_DEVICE_INTERNAL_H
#define SFI_DEVICE_INTERNAL_H

#include "bytes.h"
#include "sfi_device.h"

enum { SP = 2, A0 = 10, A1 = 11, RA = 1 }; /* registers: the stack pointer, a call's arguments and answers, the return address */
enum { ECALL_SIZE = 4 };

/* gates.c: answers the call at pc of a sandbox's frame, which has a firmware. The frame, or NULL where the turn ends. switch.S
   calls the first, which is the second unless a file that measures defines it */
struct sfi_device_frame *sfi_device_answer(struct sfi_device_frame *frame);
struct sfi_device_frame *sfi_device_answer_call(struct sfi_device_frame *frame);
extern const struct sfi_device_gate sfi_device_no_gate; /* at no address where an instruction begins */
/* Has a service of the table, or none, answer */
enum sfi_device_outcome sfi_device_serve(const struct sfi_device_firmware *firmware, struct sfi_device_sandbox *caller,
                                         struct sfi_device_call *call);
/* Makes of the caller at its gate what the answer says, which isn't GOES_ON; false where the turn ends */
bool sfi_device_take_answer(struct sfi_device_sandbox *caller, const struct sfi_device_call *call, enum sfi_device_outcome outcome);

/* entry.c: whether an image can have its data there, with both guard zones */
bool sfi_device_is_data(uint32_t base, uint32_t size);

/* trap.c */
void sfi_device_stop_by_trap(struct sfi_device_sandbox *sandbox, uint32_t cause);

/* switch.S: runs until the next trap or interrupt, and answers its cause. The firmware has its traps come to
   sfi_device_trapped, and defines sfi_device_trap_of_host, where the host's own then come, with each register as it was */
uint32_t sfi_device_enter(struct sfi_device_frame *frame);
extern const uint32_t sfi_device_switch_instructions;   /* how many of its own lie between the two counts */

#endif
