/*
 * Accepted code beside its host on an RV32 processor, in one address space and one privilege mode: what a firmware links to
 * judge an image, run its sandboxes by turns, and answer their calls at gates. docs/DEVICE.md says what a device owes the
 * theorem, and which of these calls keeps it.
 *
 * No call halts, waits or prints, or takes memory: each fault is an answer. No pointer is NULL but where that is said. Calls of one hart, one at a time; the checker's
 * may be interrupted by sfi_device_turn, in its between_pieces. All of it is GNU C11 (gcc or clang) and assembly, for a
 * processor with the extension M, and of C it asks for memcpy and memset alone. Each of its global names begins with
 * sfi_device_.
 *
 * The firmware has a header sfi_device_config.h: device/README.md says what is in it.
 */
#ifndef SFI_DEVICE_H
#define SFI_DEVICE_H

#include <stdbool.h>
#include <stddef.h>
#include <stdint.h>

#include "sfi.h" /* of crates/sfi_c: what a verdict is */

#ifdef __cplusplus
extern "C" {
#endif

/* docs/IMAGE.md and docs/GATES.md */
enum {
    SFI_DEVICE_GATES_MOST = 64,
    SFI_DEVICE_FORMAT_1 = 1,        /* of bundles */
    SFI_DEVICE_FORMAT_2 = 2,
    SFI_DEVICE_FORMAT_OF_WORDS = 3,
    SFI_DEVICE_FORMAT_OF_SINGLE_MASKS = 4, /* words, too; the addresses below data_size + 4096 and the last 4096 are a guard zone */
    SFI_DEVICE_GUARD_ZONE = 4096,   /* on each side of the data: every access there has to trap, and the sandbox ends by it */
    SFI_DEVICE_ARGUMENTS = 8        /* of an entry: a0 to a7 */
};

enum sfi_device_status {
    SFI_DEVICE_DONE = 0,
    SFI_DEVICE_NOT_ACCEPTED,        /* the verdict says why */
    SFI_DEVICE_CHECKER_STOPPED,     /* it couldn't go on: there is no verdict, and no image to run */
    SFI_DEVICE_NO_SANDBOX,          /* the image has none of that number */
    SFI_DEVICE_NO_GUARDS,           /* code in words, or of no format, is held by guard zones that trap, and the port has none */
    SFI_DEVICE_NO_ENTRY,            /* no entry of physical memory protection is left for the sandbox, or there is none so high */
    SFI_DEVICE_NO_MEMORY,           /* no page is left for it */
    SFI_DEVICE_CODE_IS_HOST,        /* its code is where the host is */
    SFI_DEVICE_DATA_IS_HOST,        /* its data or guard zones are */
    SFI_DEVICE_OTHER_RULES,         /* mseccfg isn't 0: the rules of physical memory protection are others */
    SFI_DEVICE_ENTRY_DIFFERS,       /* entry `other` of it isn't as it was written: it is locked, coarser, or not there */
    SFI_DEVICE_GUARD_IS_OPEN,       /* a load at `address`, in a guard zone, doesn't trap */
    SFI_DEVICE_DATA_IS_CLOSED,      /* a load at `address`, in the data, traps */
    SFI_DEVICE_IS_MIRRORED,         /* a store at `address`, in the data, changes the byte at `other` */
    SFI_DEVICE_BAD_PLACE,           /* no image can have its data there: their size is no power of two from 256 on, they don't begin
                                       at a multiple of it, or a guard zone lies outside the addresses */
    SFI_DEVICE_BAD_STORE,           /* sfi_device_store_open refuses the store of plug-in `other` */
    SFI_DEVICE_BUSY,                /* it is called within a call of its kind */
    SFI_DEVICE_NO_ZONE_AT_ZERO      /* of the fourth format: the port doesn't close the zone at zero, below the data's size + 4096 and
                                       the last 4096 addresses, or the host lies there */
};

/* What a fault's status doesn't speak of is 0. */
struct sfi_device_fault {
    enum sfi_device_status status;
    uint32_t address, other;
};

struct sfi_device_gate {
    uint32_t address, service;
};

/* What the image says of a sandbox. */
struct sfi_device_part {
    uint32_t format; /* that of the image: 1 for SFI1, 2 for SFI2, 3 for SFIW, 4 for SFIS */
    uint32_t code_base, code_size, data_base, data_size, start, gate_count, first_count;
    const uint8_t *code, *first; /* in the image's own bytes, which no sandbox can write */
    struct sfi_device_gate gates[SFI_DEVICE_GATES_MOST];
};

struct sfi_device_firmware;

/* A sandbox's registers while the host runs. switch.S knows the offsets. x[0] is always 0. */
struct sfi_device_frame {
    uint32_t x[32], pc, host_stack;
    uint32_t retired_before, retired_after; /* counts of instructions, on the way in and out */
    uint32_t called;                        /* and at a call without a trap */
    const struct sfi_device_firmware *firmware; /* that answers calls at gates; NULL: each ecall ends the way in */
    const struct sfi_device_gate *last_gate;    /* that was called, in a turn; and its number */
    uint32_t last_gate_number;
};

/* EMPTY: no code is there for it. All else of it is 0 then, so that it has no region, and can't be run or entered. */
enum sfi_device_state { SFI_DEVICE_EMPTY, SFI_DEVICE_READY, SFI_DEVICE_EXITED, SFI_DEVICE_TRAPPED };

/* Its part tells of the code that is in its place. Who puts other code there empties it before. */
struct sfi_device_sandbox {
    struct sfi_device_part part;
    struct sfi_device_frame frame;
    enum sfi_device_state state;
    uint32_t exit_code;         /* of EXITED */
    bool has_reported;          /* by sfi_device_report, of sfi_device_plugins.h */
    const char *trap;           /* of TRAPPED: the name that `sfi run` gives it .. */
    uint32_t trap_address;      /* .. the first byte of the access, or else pc */
    uint64_t steps;
};

/* ---- Gates */

/* A call at a gate. A service may change a0 and a1. */
struct sfi_device_call {
    uint32_t service, a0, a1;
};

enum sfi_device_outcome {
    SFI_DEVICE_REPLIED,
    SFI_DEVICE_GOES_ON,     /* there is no reply yet: the same call is made again, after an interrupt if one is due */
    SFI_DEVICE_YIELDED,     /* the reply ends the turn */
    SFI_DEVICE_LEFT         /* the caller has exited, with a0 */
};

/* Answers a call. It may change the call's a0 and a1, the caller's data that sfi_device_own_bytes gives it, and what is the
   firmware's own. It has to be right for any a0 and a1, at any time. */
typedef enum sfi_device_outcome sfi_device_service(void *host, struct sfi_device_sandbox *caller, struct sfi_device_call *call);

/* Two services: the caller exits with a0; its turn ends. */
sfi_device_service sfi_device_exit, sfi_device_yield;

/* What the firmware gives. */
struct sfi_device_firmware {
    /* By the numbers that images give their gates. A call of a service that isn't there has UINT32_MAX as its reply, in a0 */
    sfi_device_service *const *services;
    uint32_t service_count;
    void *host;                                 /* each service gets it */
    void (*interrupt_after)(uint32_t ticks);    /* has the timer interrupt, once; NULL: something else ends turns */
    /* Quiets an interrupt other than the timer's, of that cause without its highest bit, and says whether it is one of the
       firmware's: then the turn goes on, else the sandbox ends. It must not know one by which the processor tells of an
       access that failed: going on then lets code in words out. NULL where it has none */
    bool (*answer_interrupt)(uint32_t cause);
};

/* ---- The checker: of checker.sh */

/* Judges the image where it lies, in pieces, and after each of them calls between_pieces, if that isn't NULL, with host: in
   it a sandbox that is no part of the image may have a turn. After the first piece in which a rule is broken it stops: then
   the verdict has no findings, unless it was the last. DONE where the image is accepted, NOT_ACCEPTED, BUSY within another
   check, or CHECKER_STOPPED, also where the image isn't memory, or meets the checker's own. */
enum sfi_device_status sfi_device_check(const uint8_t *image, uint32_t length, void (*between_pieces)(void *host),
                                        void *host, struct sfi_verdict *verdict);
/* These three come after it. Its bytes stay as they were judged. */
/* Tells the accepted image's sandbox of that number. DONE, NO_SANDBOX, NOT_ACCEPTED where that address and length aren't those
   of the image that was judged last, and accepted, or CHECKER_STOPPED. */
enum sfi_device_status sfi_device_tell(const uint8_t *image, uint32_t length, uint32_t number, struct sfi_device_part *part);
/* No region and no guard zone of one of them, nor zone at zero, meets a region or guard zone of the other. False within a check. */
bool sfi_device_are_apart(const struct sfi_device_part *one, const struct sfi_device_part *other);
/* In moving.o alone: has the image's sandbox of that number lie at another place, in its bytes. False, and none of them is
   changed, where it can't lie there, or tell says NOT_ACCEPTED. */
bool sfi_device_move(uint8_t *image, uint32_t length, uint32_t number, uint32_t code_base, uint32_t data_base);

/* ---- Enter and leave */

/* Leaves nothing of a sandbox. */
void sfi_device_empty(struct sfi_device_sandbox *sandbox);
/* Makes a sandbox whose code and data are in their places ready at its start. */
void sfi_device_enter_start(struct sfi_device_sandbox *sandbox, const struct sfi_device_part *part);
/* Makes a sandbox that has stopped ready at pc, the first address of one of its bundles, or words, with arguments in a0
   to a7, in ra its first gate of service 0, and in x2 room above the stack as its image asks for. Its data stay. False,
   and nothing is changed, where it is ready or empty, pc isn't such, or its code isn't in place any more. A call that went on
   is over: before it, the firmware forgets what a service keeps of that. Without arguments (NULL) each is 0. */
bool sfi_device_enter_again(struct sfi_device_sandbox *sandbox, uint32_t pc, const uint32_t arguments[SFI_DEVICE_ARGUMENTS]);
/* One turn of a sandbox: until the timer, a yield, an exit or a trap ends it. None of one that isn't ready. Called with
   interrupts off, on any stack. */
void sfi_device_turn(const struct sfi_device_firmware *firmware, struct sfi_device_sandbox *sandbox, uint32_t ticks);
/* The bytes of a sandbox's data from an address on, or NULL where one of them isn't its own. */
uint8_t *sfi_device_own_bytes(const struct sfi_device_sandbox *sandbox, uint32_t address, uint32_t length);
/* The word that four of them are, which need not be aligned; and whether code, say, is what was judged. */
uint32_t sfi_device_word_at(const uint8_t *bytes);
bool sfi_device_are_same(const uint8_t *one, const uint8_t *other, uint32_t length);

/* A function that the image names. */
struct sfi_device_function {
    uint32_t address, length;   /* that of the name, whose bytes are visible ASCII, without a zero after them */
    const uint8_t *name;        /* in the image's own bytes */
};
/* The exported function that begins last before an address of code, or at it: where a trap is, say. False where no name is
   there. Nothing rests on it: names are the author's claim. */
bool sfi_device_function_at(const struct sfi_device_part *part, uint32_t address, struct sfi_device_function *function);

/* ---- Ports: pmp.c, for code in M-mode; none.c, for a chip without physical memory protection; sv32.c has a header */

/* Closes the guard zones of the sandbox of that number, once sfi_device_write_protection is called. DONE, NO_GUARDS, NO_ENTRY,
   BAD_PLACE or NO_ZONE_AT_ZERO, by both of a part of the fourth format.
   pmp.c looks at the part's format, data_base and data_size alone: they may be a place in which each version of a plug-in has to lie. */
struct sfi_device_fault sfi_device_close_guards(uint32_t number, const struct sfi_device_part *part);
/* Writes all SFI_DEVICE_PMP_ENTRIES entries: those that nobody asked for are turned off, where they aren't locked. Called with
   interrupts off. DONE, OTHER_RULES or ENTRY_DIFFERS. */
struct sfi_device_fault sfi_device_write_protection(void);
/* An entry of physical memory protection, for the host or a port of one's own; sandbox N of sfi_device_close_guards has those
   from 3 N to 3 N + 2. DONE, or NO_ENTRY where there is none of that number. And the address that a power of two of bytes
   has there. */
enum sfi_device_status sfi_device_protect(uint32_t entry, uint64_t address, uint8_t configuration);
uint32_t sfi_device_power_of_two(uint32_t base, uint32_t size);

/* ---- What is tried before a sandbox runs */

/* Memory that the host reads: its own, the image and all code. */
struct sfi_device_span {
    uint32_t from, size;
};
/* Tries that a store to an end of the sandbox's data changes no byte of the spans, but itself, which the host has at
   host_address(address), or where that is NULL there. While the host may read all of it: with pmp.c before guard zones are
   closed. A mirror behind a data cache can't be seen so. DONE or IS_MIRRORED. */
struct sfi_device_fault sfi_device_try_mirrors(const struct sfi_device_part *part, const struct sfi_device_span spans[],
                                               uint32_t count, uint32_t (*host_address)(uint32_t address));
/* Tries that loads at both ends of each guard zone trap, and none at the ends of the data; of the part it looks at format, data_base
   and data_size alone. When all is as sandboxes will find it, before an interrupt is on but the timer's. DONE, GUARD_IS_OPEN or DATA_IS_CLOSED. */
struct sfi_device_fault sfi_device_try_guards(const struct sfi_device_firmware *firmware, const struct sfi_device_part *part);

/* ---- What the firmware may define: weak names, which are called where they are there. For the sake of a weak name a linker
   takes nothing out of a static library: link the object itself, or name it by -u */

/* Whether memory holds the code that was judged, where code may be. */
__attribute__((weak)) bool sfi_device_is_code_in_place(const struct sfi_device_part *part);
/* A turn begins; the host has entered the sandbox and is left by it, before its steps are used. */
__attribute__((weak)) void sfi_device_will_run(struct sfi_device_sandbox *sandbox);
__attribute__((weak)) void sfi_device_has_run(const struct sfi_device_frame *frame);
/* Brings a sandbox that was interrupted in firmware's code which it came to without a trap back to its own. */
__attribute__((weak)) void sfi_device_leave_slot(struct sfi_device_sandbox *sandbox);

#ifdef __cplusplus
}
#endif

#endif
