/* The sections of the host in which no interrupt can come: from a trap of a sandbox to where one goes on. The file that includes
   this defines note_section. */
#include "host.h"
#include "internal.h"

static void note_section(uint32_t instructions);

enum { AROUND = 17 }; /* instructions of each function below outside its own two counts, by gcc 12 */

static enum { NOTHING_YET, AN_ENTRY, A_REPLY } next; /* what ends the section that the host is in */
static uint32_t left_at, before_reply, own; /* own: instructions that are this file's, in the section */

static uint32_t retired_now(void) {
    uint32_t count;
#if SFI_DEVICE_IN_M_MODE
    __asm__ volatile("csrr %0, minstret" : "=r"(count));
#else
    __asm__ volatile("rdinstret %0" : "=r"(count));
#endif
    return count;
}

static void end_section(const struct sfi_device_frame *frame) {
    if (next == AN_ENTRY)
        note_section(frame->retired_before - left_at + sfi_device_switch_instructions - own);
    else if (next == A_REPLY && frame->retired_before != before_reply)
        note_section(frame->retired_before - before_reply - own);
    else
        return;
    own = 0;
}

struct sfi_device_frame *sfi_device_answer(struct sfi_device_frame *frame) {
    uint32_t from = retired_now();
    end_section(frame);
    before_reply = frame->retired_before; /* what the host does at the call is added to it */
    next = A_REPLY;
    own += retired_now() - from + AROUND;
    return sfi_device_answer_call(frame);
}

void sfi_device_has_run(const struct sfi_device_frame *frame) {
    uint32_t from = retired_now();
    end_section(frame);
    left_at = frame->retired_after;
    next = AN_ENTRY;
    own += retired_now() - from + AROUND;
}
