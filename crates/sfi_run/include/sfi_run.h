/*
 * The sandboxes of Suygapid for hosts in C and C++: an image is checked and loaded into a world, its sandboxes get turns,
 * and where one calls a gate the host gets control back, serves the call in its own way, and replies.
 *
 * Only an image that is accepted is loaded: so whatever its code does, and whatever the host writes, enters, stops and
 * replies, every load and store of a sandbox falls in its own data region or guard zones, where it traps, no code byte
 * changes, and control leaves only through a listed gate. This is proved of the calls below (README.md has the theorem
 * with its premises, docs/PROOFS.md what is proved of each call). The sandboxes run in a memory of the library's own, step
 * by step: no code of theirs runs on the host's processor, and no address of theirs is one of the host's.
 *
 * One premise is worth a word: a trap ends the run. The sandbox goes on by sfi_run_enter, sfi_run_call,
 * sfi_run_set_registers and sfi_run_reset alone, which set its registers anew. The library keeps this. A host that runs
 * accepted code by other means (sfi.h) has to: where it steps over an ebreak, or in the third and fourth completes or steps
 * over an access with a byte in a guard zone, code can leave its sandbox.
 *
 * The calls read nothing but their arguments, the world, the console and the module, keep nothing elsewhere, start no thread,
 * and read and write no file. sfi_run_load takes memory by malloc and realloc, for the world of an accepted image alone;
 * sfi_run_load and sfi_run_free give it back by free; sfi_run_add, sfi_run_remove and the calls of a module and of a console do
 * so, too, as they say; the other calls do neither. Each returns: sfi_run_turn, sfi_run_until, sfi_run_call and
 * sfi_run_console_turn after at most the steps that they were given. A thread with 64 KiB of stack had room for each where that
 * was measured.
 *
 * What a caller owes, since nothing checks it:
 *
 * - A world begins as SFI_RUN_NO_WORLD, or as zeros, and nobody but these calls writes it then. One that begins as
 *   anything else is freed as if it were a world: sfi_run_load, too, frees what is there.
 * - A world may be moved: its bytes are copied, and the old ones are used no more. Of two copies only one is ever used:
 *   to free one, and then to free or use the other, is as wrong as to free a block of malloc twice. The same
 *   struct may be freed twice: after the first time it holds no world. A world that goes out of use is freed first, or its
 *   memory is lost.
 * - One call at a time uses a world. Any thread may make it; where two threads use a world, a lock, a join or the like
 *   orders their calls, also those that only look. Calls on different worlds may be made at once, also on those of one module;
 *   a call that is handed a module uses that, too.
 * - No call is made in a signal handler, nor in the forked child of a process that had threads. None is left by longjmp,
 *   by a C++ exception or by ending its thread: during a call, also one that only looks, the struct says that there is no
 *   world, and so the world of a call that is left is lost. What bounds the time of a turn is the number of its steps
 *   (sfi_run_limit.h: runs of short turns, which another thread ends, or a time).
 * - Each pointer is not NULL and is aligned, also where its length is 0. `length` bytes at it can be read, or `room` bytes
 *   written, and these are fewer than PTRDIFF_MAX. What the arguments of a call point to doesn't overlap. No value has to
 *   be in what a call is to write.
 * - Nothing else reads or writes what the arguments point to during the call: no thread, and no other process that shares
 *   the memory. sfi_run_load and sfi_run_module_new read the image twice, to check it and to copy it: an image in a mapped file (mmap) that
 *   changes in between isn't what was checked, and the theorem says nothing of it. Read the file into memory of your own.
 * - What malloc, realloc and free are to the library's heap.c is one allocator, which keeps what the C standard says.
 *
 * What a host need not fear: a sandbox's number that is too large, an address outside its data, or a reply where none is
 * due. Such a call answers so, and changes nothing. A struct without a world is right in every call: it has no sandbox.
 *
 * What a sandbox leaves in its data, and passes in a call, may be any bytes and numbers at all, lengths too: test them
 * before you rely on them.
 *
 * In C++ say `struct sfi_run_event` and `struct sfi_run_registers`, as in C: the names alone are those of the calls.
 *
 * Link libsfi_run.a and crates/sfi_run/c/heap.c, which an installed library has in it (docs/EMBEDDING.md has the command
 * lines). Of sfi.h it takes struct sfi_verdict; the calls that are declared there are in another library, libsfi_c.
 */
#ifndef SFI_RUN_H
#define SFI_RUN_H

#include "sfi.h"

#include <stdbool.h>
#include <stddef.h>
#include <stdint.h>

/* The version of this header, and of the library that it declares: major, minor, patch; and major * 65536 + minor * 256 +
 * patch. */
#define SFI_RUN_VERSION "0.1.0"
#define SFI_RUN_VERSION_NUMBER 0x000100

#ifdef __cplusplus
extern "C" {
#endif

/*
 * The version of the library that is linked, or loaded, as a number. Where it doesn't agree with SFI_RUN_VERSION_NUMBER in
 * major and minor (the numbers over 256), the library isn't that of this header: make no other call.
 */
uint32_t sfi_run_version(void);

/* A world, or none. Begin with `struct sfi_run_world world = SFI_RUN_NO_WORLD;`. Both fields are the library's own. */
struct sfi_run_world {
    uint32_t held;
    void *at;
};
#define SFI_RUN_NO_WORLD {0, NULL}

/* A module, or none: an image that is checked and decoded once, for many worlds. Begin with
 * `struct sfi_run_module module = SFI_RUN_NO_MODULE;`. What is said above of how a world is kept, moved, freed and used by
 * threads holds of it, too. Both fields are the library's own. */
struct sfi_run_module {
    uint32_t held;
    void *at;
};
#define SFI_RUN_NO_MODULE {0, NULL}

/* What became of an image that was to be loaded. */
enum sfi_run_status {
    SFI_RUN_LOADED = 0,   /* it is accepted, and its world is there */
    SFI_RUN_REFUSED = 1,  /* rules are broken in it: the verdict says how often, and the first finding */
    SFI_RUN_NO_IMAGE = 2, /* the bytes are no image: the verdict says why */
    SFI_RUN_NO_MEMORY = 3 /* it is accepted, and there was no memory for its world */
};

/* What became of a world that was to get sandboxes, or to lose one. */
enum sfi_run_change {
    SFI_RUN_CHANGED = 0,
    SFI_RUN_CHANGE_NO_WORLD = 1,
    SFI_RUN_CHANGE_NO_MODULE = 2,
    SFI_RUN_CHANGE_NO_SANDBOX = 3, /* there is none of that number */
    SFI_RUN_CHANGE_MEETS = 4,      /* code, data or a guard zone would meet those of one that is there, or a zone at zero */
    SFI_RUN_CHANGE_FULL = 5,       /* there would be more sandboxes than numbers of 32 bits, which don't fit into memory */
    SFI_RUN_CHANGE_NO_MEMORY = 6   /* there was no memory for it */
};

/* How a sandbox stands. */
enum sfi_run_kind {
    SFI_RUN_NONE = 0,   /* there is no sandbox of that number, or no world */
    SFI_RUN_READY = 1,  /* it can take a turn, and doesn't stand at a call */
    SFI_RUN_CALL = 2,   /* it stands at a call, and waits for a reply */
    SFI_RUN_EXITED = 3, /* it has stopped, by a reply with sfi_run_exit, or by a console's exit */
    SFI_RUN_TRAPPED = 4, /* it has stopped, at an instruction that trapped */
    SFI_RUN_STOPPED = 5  /* it has stopped, by sfi_run_stop */
};

/* Why a sandbox trapped. Accepted code never meets the first two. */
enum sfi_run_cause {
    SFI_RUN_FETCH = 1,   /* a byte of the instruction isn't there */
    SFI_RUN_ILLEGAL = 2, /* the bytes are no instruction */
    SFI_RUN_BREAK = 3,   /* ebreak */
    SFI_RUN_LOAD = 4,    /* a load in a guard zone */
    SFI_RUN_STORE = 5    /* a store there */
};

/* How a sandbox stands, with what belongs to it. What its kind doesn't speak of is 0. */
struct sfi_run_event {
    uint32_t kind;   /* one of enum sfi_run_kind */
    uint32_t number; /* CALL: the service (docs/GATES.md); EXITED: the number; TRAPPED: one of enum sfi_run_cause */
    uint32_t gate;   /* CALL: which of its gates, 0 to 63, in the order of the image */
    uint32_t pc;     /* its pc, at a CALL the gate's address; 0 where there is no sandbox */
    uint32_t a0;     /* CALL: a0; TRAPPED: the address of the access, and for the causes 1 to 3 the pc */
    uint32_t a1;     /* CALL: a1, and so on: a gate gets eight words */
    uint32_t a2;
    uint32_t a3;
    uint32_t a4;
    uint32_t a5;
    uint32_t a6;
    uint32_t a7;
};

/* Where the data of a sandbox lie. */
struct sfi_run_region {
    uint32_t base; /* its first address */
    uint32_t size; /* how many bytes it has */
};

/* pc, and the registers x0 to x31. */
struct sfi_run_registers {
    uint32_t pc;
    uint32_t x[32];
};

/* Whoever calls by another language writes these structs anew: they have no padding, but for 4 bytes after `held` where
 * a pointer has 64 bits. */
#if defined(__cplusplus) && __cplusplus >= 201103L
static_assert(sizeof(struct sfi_run_event) == 48 && sizeof(struct sfi_run_region) == 8 &&
                  sizeof(struct sfi_run_registers) == 132 && sizeof(struct sfi_run_world) == 2 * sizeof(void *),
              "the structs have no other padding");
#elif defined(__STDC_VERSION__) && __STDC_VERSION__ >= 201112L
_Static_assert(sizeof(struct sfi_run_event) == 48 && sizeof(struct sfi_run_region) == 8 &&
                   sizeof(struct sfi_run_registers) == 132 && sizeof(struct sfi_run_world) == 2 * sizeof(void *),
               "the structs have no other padding");
#endif

/* ---- a world */

/*
 * Frees the world that was there, checks the image, and where it is accepted makes the world of its sandboxes, each ready
 * at its start (docs/GATES.md has the registers). Returns one of enum sfi_run_status; unless it is SFI_RUN_LOADED there is
 * no world. The image is copied: its bytes are not needed after the call.
 *
 * Writes to *verdict what sfi_c_check of sfi.h says of the image, whatever the status is. Memory is taken of accepted
 * bytes alone: whether an image is refused doesn't depend on how much memory there is.
 *
 * The world that was there is gone also where the new image is refused. To go on with the old one then, load into a
 * second struct, and only where that is loaded free the first and copy the second to it.
 */
uint32_t sfi_run_load(const uint8_t *image, size_t length, struct sfi_run_world *world, struct sfi_verdict *verdict);

/* Frees the world. There is none then, and another image may be loaded. Where there was none, nothing happens. */
void sfi_run_free(struct sfi_run_world *world);

/*
 * Frees the module that was there, checks the image, and where it is accepted makes its module. The image is copied. Returns,
 * and writes to *verdict, what sfi_run_load does; unless that is SFI_RUN_LOADED there is no module. It takes memory for an
 * accepted image alone.
 */
uint32_t sfi_run_module_new(const uint8_t *image, size_t length, struct sfi_run_module *module, struct sfi_verdict *verdict);

/* Frees the module. Worlds that were made of it go on as they are. Where there was none, nothing happens. */
void sfi_run_module_free(struct sfi_run_module *module);

/*
 * Frees the world that was there, and makes one of the module: what sfi_run_load makes of the image, but nothing is checked or
 * decoded anew. The worlds of a module share its decoded code and the first data bytes of its image, which no call writes, and
 * count by atomic numbers how many they are: so each may be used, moved and freed by a thread of its own, in any order and before
 * or after the module, and the last one gives the memory back. What a world can change it has alone. Returns false where there is
 * no module or no memory; there is no world then.
 */
bool sfi_run_instance(struct sfi_run_module *module, struct sfi_run_world *world);

/*
 * Adds the sandboxes of the module to the world, beside those that are there: each is as sfi_run_instance makes it, and they
 * have the numbers from *first on, in the image's order. Nothing changes of those that are there: not what they hold, nor the
 * call at which one stands. Returns one of enum sfi_run_change, of several the first; unless it is SFI_RUN_CHANGED nothing
 * changes and *first isn't written.
 *
 * A sandbox posts to others by their numbers in the world; in the names of its image (sfi_run_export) *first is sandbox 0. A
 * console that was made before knows none of the new ones, and refuses their calls but exit and yield.
 *
 * A sandbox lies where its image says, so two modules of a world are made for different places, or moved to them (`sfi move`), none
 * in a zone at zero of the fourth format (sfi.h).
 * Images of different formats may share a world. Nothing is checked or decoded anew, and the module may be freed afterwards;
 * but what the world has is copied: for a moment it takes its memory twice. Where there is no memory, the world may keep up to 8
 * bytes more than before for each sandbox that it would have, until it is freed.
 */
uint32_t sfi_run_add(struct sfi_run_world *world, struct sfi_run_module *module, uint32_t *first);

/*
 * Removes a sandbox from the world, whatever it did and wherever it stands: its code and data are gone, and others may be added
 * where they lay. EACH SANDBOX OF A HIGHER NUMBER HAS A NUMBER LESS BY ONE THEN: a host that keeps something of each by its
 * number takes out the same place of what it keeps, and so it does not write to one what was meant for another. Nothing else
 * changes of those that are left, and a world of which none is left may get others. Returns one of enum sfi_run_change; unless it
 * is SFI_RUN_CHANGED nothing changes. What is left is copied, as by sfi_run_add.
 *
 * A console knows sandboxes by their numbers, too: read its outputs, and make a new one. Registers that sfi_run_call_back kept
 * of the sandbox are not to be set after that; those of a later one are set at its new number. Where a handler of sfi_run_serve
 * or sfi_run_function removes the sandbox that it serves, or one of a lower number, the run ends (SFI_RUN_GONE).
 */
uint32_t sfi_run_remove(struct sfi_run_world *world, uint32_t sandbox);

/*
 * How many sandboxes there are, of one image 1 to 16; 0 where there is no world, and where none is left (such a world is freed,
 * too). They are numbered from 0, in the image's order.
 */
size_t sfi_run_count(struct sfi_run_world *world);

/* ---- names: what an image's table says (docs/IMAGE.md) */

/* What the calls below return. */
enum sfi_run_names {
    SFI_RUN_NAMES_FOUND = 0,
    SFI_RUN_NAMES_NO_IMAGE = 1,   /* the bytes are no image */
    SFI_RUN_NAMES_NO_SANDBOX = 2, /* it has no sandbox of that number */
    SFI_RUN_NAMES_NO_TABLE = 3,   /* the sandbox's first data bytes end in no table's magic */
    SFI_RUN_NAMES_BAD_TABLE = 4,  /* they end in the magic, and what stands before it is no table's */
    SFI_RUN_NAMES_NO_NAME = 5     /* the table doesn't have the name, or no entry of the index */
};

#define SFI_RUN_NAME_MOST 255 /* how many bytes a name has at most */

/*
 * Writes the address that a name of `size` bytes stands for in the table of a sandbox of the image. An export is a function
 * to call (sfi_run_call), or an object of the data (sfi_run_read, sfi_run_write); an import is a gate, if the table
 * is right: pc is that address when it is called. Where two have the name, it is the first's. Returns one of enum
 * sfi_run_names, and writes nothing unless that is SFI_RUN_NAMES_FOUND.
 *
 * The table is what the image says of itself, and may say anything: an address that can't be entered, read or written is
 * refused by the calls that do so. The image needn't be accepted, and no world is asked: of the bytes the layout alone is
 * looked at, each time, and not the code.
 */
uint32_t sfi_run_export(const uint8_t *image, size_t length, uint32_t sandbox, const char *name, size_t size,
                        uint32_t *address);
uint32_t sfi_run_import(const uint8_t *image, size_t length, uint32_t sandbox, const char *name, size_t size,
                        uint32_t *address);

/*
 * Lists the exports, and the imports: writes the name of the entry at an index, counted from 0, to the first *name_size bytes
 * of `name`, and what it stands for to *address. The other bytes of `name` stay, so that no zero ends it. Returns one of enum
 * sfi_run_names: SFI_RUN_NAMES_NO_NAME where there are fewer entries, and nothing is written unless it is
 * SFI_RUN_NAMES_FOUND. A name is 1 to 255 visible characters of ASCII. One that begins with a point is a claim of the tools:
 * sfi_run_signature (sfi_run_serve.h) reads those that say what a function takes and gives.
 */
uint32_t sfi_run_export_at(const uint8_t *image, size_t length, uint32_t sandbox, uint32_t index,
                           uint8_t name[SFI_RUN_NAME_MOST], uint32_t *name_size, uint32_t *address);
uint32_t sfi_run_import_at(const uint8_t *image, size_t length, uint32_t sandbox, uint32_t index,
                           uint8_t name[SFI_RUN_NAME_MOST], uint32_t *name_size, uint32_t *address);

/* Writes the version of the host's interface for which the code is made, as the table says. Returns likewise, but
 * never SFI_RUN_NAMES_NO_NAME. */
uint32_t sfi_run_api(const uint8_t *image, size_t length, uint32_t sandbox, uint32_t *version);

/* ---- a turn, and the reply to a call */

/*
 * Runs a sandbox for at most `steps` steps, and no further than its next call. Writes to *event how it stands then, and
 * returns the event's kind. Where it stands at a call already, or has stopped, it does no step. An instruction that is done
 * and a call that is replied to are a step each (sfi_run_steps counts them). A trap isn't counted, but a turn of 0 steps
 * doesn't get as far as one.
 *
 * One that stands at a call has done all before it and nothing of the call: its data can be read and written, and the
 * data as they are when the reply comes are what it goes on with.
 */
uint32_t sfi_run_turn(struct sfi_run_world *world, uint32_t sandbox, uint32_t steps, struct sfi_run_event *event);

/*
 * The same, but the turn ends, too, before an instruction at one of the `count` addresses `stops`. Its first step, if it may
 * take one, is made at a stop, too, so that it goes on from there. So it is a turn of the fewest steps after which pc is a
 * stop; and of `steps` where there are none such. A step takes longer here: each stop is compared.
 */
uint32_t sfi_run_until(struct sfi_run_world *world, uint32_t sandbox, const uint32_t *stops, size_t count, uint32_t steps,
                       struct sfi_run_event *event);

/* Writes to *event how the sandbox stands, and returns the event's kind. Nothing runs. */
uint32_t sfi_run_event(struct sfi_run_world *world, uint32_t sandbox, struct sfi_run_event *event);

/*
 * The reply to the call at which the sandbox stands: a0 and a1 get these values, the other registers stay, and in its next
 * turn it goes on after the call. A host that doesn't mean to change a1 hands back the call's. Returns false where it
 * stands at no call, and nothing changes then: so a call gets one reply. The reply is a step.
 */
bool sfi_run_reply(struct sfi_run_world *world, uint32_t sandbox, uint32_t a0, uint32_t a1);

/*
 * The other reply: the sandbox stops at the call, with that number. a0 becomes that number, and a1 0; pc stays at the call,
 * and the reply is a step. Returns false likewise.
 */
bool sfi_run_exit(struct sfi_run_world *world, uint32_t sandbox, uint32_t number);

/*
 * Stops a sandbox that is ready or stands at a call: no turn runs it, and no call of it gets a reply. Its data, pc,
 * registers and steps stay, and sfi_run_enter, sfi_run_call, sfi_run_set_registers and sfi_run_reset make it ready again. So
 * a host keeps the data of one that was cut off in a loop. Returns false where there is no such sandbox or it has stopped already, and
 * changes nothing then.
 */
bool sfi_run_stop(struct sfi_run_world *world, uint32_t sandbox);

/*
 * Takes a sandbox back to what sfi_run_load, sfi_run_instance or sfi_run_add made of it, whatever it did and wherever it stands: its data are those of the
 * image and then zeros, its pc and registers are those of its start, it is ready, and its count of steps is 0. So a plug-in
 * begins anew for the next one who calls it: nothing is left of what it kept in its data, and no other sandbox changes. What
 * a console keeps of it stays, which is its output, its place in the input and its mailbox: make a new console for a new user.
 * A call at which it stood is gone: registers that sfi_run_call_back kept are not to be set after that. The image isn't needed
 * for a reset, nothing is checked anew, and no memory is taken: it costs what writing its data does. Returns false where there
 * is no such sandbox.
 */
bool sfi_run_reset(struct sfi_run_world *world, uint32_t sandbox);

/* ---- between turns: whether the sandbox is ready, stands at a call or has stopped */

/*
 * Copies `length` bytes of the sandbox's data, from the address `at` on, to `bytes`, where there is room for `room` bytes.
 * `at` and `length` may be numbers that the sandbox passed; `room` is the host's. Returns false, and writes nothing, where
 * `length` is larger than `room`, there is no such sandbox, or one of the addresses is none of its data region's. What
 * follows the first `length` bytes isn't written. 0 bytes are copied from any address.
 */
bool sfi_run_read(struct sfi_run_world *world, uint32_t sandbox, uint32_t at, size_t length, uint8_t *bytes, size_t room);

/* Copies `length` bytes into the sandbox's data, from the address `at` on: all of them, or returns false likewise. */
bool sfi_run_write(struct sfi_run_world *world, uint32_t sandbox, uint32_t at, const uint8_t *bytes, size_t length);

/*
 * Makes a sandbox that has stopped ready at pc, with these arguments in a0 to a7, as a function is called: x1, the return
 * address, is that of its first gate of service 0 (0 where none is listed). x2, the stack pointer, is lower than
 * sfi_run_load sets it by the room that the image asks for (docs/IMAGE.md, "Names"). The other registers are as
 * sfi_run_load sets them, but for x30, which is pc in the third and fourth format. Its data stay, and its steps are counted on. Returns false where
 * there is no such sandbox, it hasn't stopped, or no bundle or word of its code begins at pc, and changes nothing then.
 */
bool sfi_run_enter(struct sfi_run_world *world, uint32_t sandbox, uint32_t pc, const uint32_t arguments[8]);

/*
 * Calls a function: sfi_run_enter, and then sfi_run_turn. Writes to *event how the sandbox stands then. Returns false where
 * it isn't entered.
 *
 * A function that returns calls its first gate of service 0, if one is listed, in C as in assembly: the event is
 * SFI_RUN_CALL with the number 0, a0 the result, and a1 the high word of one of 64 bits. One that exits, by abort() too,
 * makes the same call. sfi_run_exit(world, sandbox, event->a0) ends the call, and the next one may come; after
 * sfi_run_reply a function that returned makes the call again. Before that it may call other gates, use up its steps or
 * trap: it goes on by sfi_run_turn, sfi_run_stop ends it, and after a trap it has stopped.
 */
bool sfi_run_call(struct sfi_run_world *world, uint32_t sandbox, uint32_t pc, const uint32_t arguments[8], uint32_t steps,
                  struct sfi_run_event *event);

/*
 * Calls a function of a sandbox that stands at a call, which the host is serving: writes to *kept the pc and the registers
 * of that call, and makes the sandbox ready at pc, with these arguments in a0 to a7 and x1 as by sfi_run_enter. The other
 * registers are those of the call, x2, the stack pointer, too: so the function's frames lie below its caller's. It runs by
 * sfi_run_turn, may call gates and be called back itself, with registers of its own kept for each call that waits, and
 * returns as by sfi_run_call. After sfi_run_exit, or once it has trapped or is stopped,
 * sfi_run_set_registers(world, sandbox, kept) has the sandbox stand at the first call again, which waits for its reply; to
 * its caller the function has only changed data. Returns false where the sandbox stands at no call, no bundle or word of
 * its code begins at pc, or x24 to x27 or a typed register don't hold what they must (by accepted code they always do), and
 * changes and writes nothing then.
 */
bool sfi_run_call_back(struct sfi_run_world *world, uint32_t sandbox, uint32_t pc, const uint32_t arguments[8],
                       struct sfi_run_registers *kept);

/* How many steps the sandbox has done, at most 2^64 - 1; 0 where there is none. */
uint64_t sfi_run_steps(struct sfi_run_world *world, uint32_t sandbox);

/* Writes the sandbox's pc and registers; or where its data lie. Returns false where there is none, and writes nothing. */
bool sfi_run_registers(struct sfi_run_world *world, uint32_t sandbox, struct sfi_run_registers *registers);
bool sfi_run_data(struct sfi_run_world *world, uint32_t sandbox, struct sfi_run_region *region);

/*
 * Makes the sandbox ready with this pc and these registers, whether it was ready, stood at a call or had stopped; x0 stays
 * 0. Its data stay, and its steps are counted on. Returns false where there is no such sandbox, no bundle or word of its
 * code begins at pc, x24 to x27 (but x26 in the fourth format) aren't what they were, or a typed register (docs/IMAGE.md: x2 in
 * the second format, six in the third, seven in the fourth) would hold what its type forbids; and changes nothing then.
 *
 * So a debugger sets a register of a sandbox that stands where a bundle begins, or in the others a word before
 * which no step of an address is open; and a host takes a sandbox that it called back to its call (sfi_run_call_back).
 */
bool sfi_run_set_registers(struct sfi_run_world *world, uint32_t sandbox, const struct sfi_run_registers *registers);

/* ---- the console: the host of `sfi run`, ready made (docs/GATES.md says what each service of it does) */

/* A console, or none. Begin with `struct sfi_run_console console = SFI_RUN_NO_CONSOLE;`. What is said above of how a world
 * is kept, moved, freed and used by threads holds of it, too. Both fields are the library's own. */
struct sfi_run_console {
    uint32_t held;
    void *at;
};
#define SFI_RUN_NO_CONSOLE {0, NULL}

/*
 * Frees the console that was there, and makes one for `sandboxes` sandboxes, numbered from 0, each of which reads the same input
 * from its beginning. The input is copied. A sandbox from that number on gets 0xffffffff from each put, get, post and take.
 * Returns false where there is no memory for it; there is no console then.
 */
bool sfi_run_console_new(uint32_t sandboxes, const uint8_t *input, size_t length, struct sfi_run_console *console);

/* Frees the console. Where there was none, nothing happens. */
void sfi_run_console_free(struct sfi_run_console *console);

/*
 * A turn of a sandbox of the world, for at most `steps` steps, each call of which the console answers: it ends where the steps
 * are used, or the sandbox exits, traps or yields. A call that comes when the steps are used is answered in the next turn.
 * sfi_run_event says how the sandbox stands then. Returns false where there is no world or no console, or there was no memory
 * for what a put appends: then the sandbox stands at that call, all before it is done, and the next turn makes the call again.
 * A turn of a sandbox that has stopped, or isn't there, does nothing, and returns true. It takes memory for what is put alone.
 */
bool sfi_run_console_turn(struct sfi_run_console *console, struct sfi_run_world *world, uint32_t sandbox, uint32_t steps);

/* How many bytes a sandbox has put, at most 1048576; 0 where there is no such sandbox. */
size_t sfi_run_console_written(struct sfi_run_console *console, uint32_t sandbox);

/* Copies `room` of these bytes, from the one at `from` on, to `bytes`: all of them, or none and returns false, where there are
 * fewer or no such sandbox. */
bool sfi_run_console_read(struct sfi_run_console *console, uint32_t sandbox, size_t from, uint8_t *bytes, size_t room);

#ifdef __cplusplus
}
#endif

#endif
