/* What the files of the hosts share, beside the library of device/. */
#ifndef HOST_H
#define HOST_H

#include "machine.h"
#include "sfi_device.h"
#include "sfi_device_sv32.h"

/* docs/IMAGE.md and docs/GATES.md */
enum {
    IMAGE_SANDBOXES_MOST = 16,
    PUT_MOST = 65536, /* bytes of a put or get */
    MAILBOX_WORDS = 16
};

/* What run.sh asks for: running.sh writes the same words. `enters`: once the rounds are over, the sandbox
   of that number is entered at that pc with these arguments, and there are as many rounds again. */
struct arguments {
    uint32_t image_length, input_length, rounds, turn_ticks;
    uint32_t prints_steps, prints_written, prints_registers;
    uint32_t enters, entered, entry_pc, entry_arguments[SFI_DEVICE_ARGUMENTS];
};

struct letter {
    uint32_t sender, word;
};

/* A sandbox, and what the host's services keep for it. */
struct plugin {
    struct sfi_device_sandbox sandbox;
    uint32_t input_read, output_length, letter_count;
    uint32_t moved;             /* bytes of a put or get that goes on */
    struct letter mailbox[MAILBOX_WORDS];
    uint8_t output[OUTPUT_MOST];
};

struct world {
    uint32_t count;
    struct sfi_device_firmware firmware;
    const struct arguments *arguments;
    const uint8_t *input;
    struct plugin plugins[SANDBOXES_MOST];
};

/* memory.c */
void *memset(void *to, int byte, size_t length);
void *memcpy(void *restrict to, const void *restrict from, size_t length);

/* A vendor's own main, where that has it: feeds the watchdog, while an image is judged */
__attribute__((weak)) void between_pieces(void *host);

/* image.c */
/* Fills in the world's firmware. */
void start_world(struct world *world, const struct arguments *arguments);
/* Has the image judged, and reads it, with what run.sh asks for and the input, from these addresses. */
void read_image(struct world *world, uint32_t arguments, uint32_t image, uint32_t input);
/* Leaves nothing of a plug-in. */
void empty(struct plugin *plugin);
/* The number of a sandbox of the world. */
uint32_t number_of(const struct world *world, const struct sfi_device_sandbox *sandbox);

/* main.c of `virt` */
extern struct sfi_device_sv32 space;

/* main.c, or place.c of mcu: refuses to go on where the sandbox's data are mirrored in the host's memory. On mcu before the
   guard zones are closed */
void test_mirrors(uint32_t number, const struct sfi_device_part *part);
/* image.c: refuses to go on where a guard zone is open, or data are closed */
void test_guards(const struct world *world);

/* measure.c, if that is linked: all is over */
__attribute__((weak)) void print_masked(void);

/* springboards.c, if that is linked: has each gate call without a trap, once all sandboxes are mapped; and answers board.S */
__attribute__((weak)) void put_springboards(struct world *of);
uint32_t board_call(uint32_t back);     /* `back` is an address in the gate's slot */

/* rounds.c: one turn of a sandbox that is ready */
void turn(struct world *world, uint32_t number);
/* Runs the world's sandboxes as its arguments ask for, and ends */
_Noreturn void run_world(struct world *world);

/* services.c, or a vendor's file in its place */
extern sfi_device_service *const services[];
extern const uint32_t service_count;

/* interrupts.c, or a vendor's file in its place. start_interrupts is called before the first turn.
   answer_interrupt is that of struct sfi_device_firmware */
void start_interrupts(void);
bool answer_interrupt(uint32_t cause);

/* place.c, of mcu */
void place(uint32_t number, const struct sfi_device_part *part);        /* refuses a sandbox for which there is no place */

/* main.c, of each machine: run_host is called by start.S, and so are load of `virt` and judge of mcu */
uint32_t load(void);                            /* answers what satp takes */
void judge(void);
_Noreturn void run_host(void);
void interrupt_after(uint32_t ticks);           /* the timer, and once */

/* serial.c, of each machine */
void send(char byte);
enum { NO_BYTE = -1 };
int receive(void);                              /* of mcu: the next byte, or NO_BYTE where none has come */
_Noreturn void end(uint32_t status);            /* of the run */

void console_is_paged(void);                    /* of `virt` */
void start_chip(void);                          /* of mcu */

/* verdict.c: in the words of `sfi check`, without a line's end */
void print_verdict(enum sfi_device_status status, const struct sfi_verdict *verdict);

/* console.c */
void print(const char *text);
void print_hex(uint32_t number, unsigned digits);
void print_decimal(uint64_t number);
void print_world(const struct world *world);
_Noreturn void finish(void);
_Noreturn void fail(uint32_t status);
_Noreturn void refuse(const char *reason);                      /* the image as a whole, or the machine */
_Noreturn void refuse_sandbox(uint32_t number, const char *reason);
_Noreturn void refuse_number(const char *reason, uint32_t number, const char *more);
void refuse_fault(uint32_t number, struct sfi_device_fault fault);      /* goes on where there is none */
_Noreturn void host_fault(uint32_t cause, uint32_t pc);         /* start.S and fault.S come here, too */

#endif
