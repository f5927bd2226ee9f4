/*
 * Slots of a device, for C and C++: which version of a plug-in runs, where it may be written, what may be entered.
 *
 * A slot has two versions. An update is received into the memory of the one that isn't current, accepted or refused by the
 * checker, and tried: it is current then, on trial, until it has reported, or is rolled back. The calls keep nothing but the
 * slots that the caller passes, and change at most the one of that number; each answers whether it was due, and changes
 * nothing where it wasn't. Proved is of them that after any of these calls, in any order, whatever sfi_slots_may_enter
 * allows was accepted there, with those bounds and that format; that each byte of its code region is one that the caller
 * wrote of it last; that no region or guard zone of it meets one, or a zone at zero, of a version that another slot keeps,
 * nor the other way round; and that its image's memory isn't the one that an update is received into.
 *
 * What a caller owes, since nothing checks it:
 *
 * - sfi_slots_clear comes first, and nobody but these calls writes the slots.
 * - What it passes to sfi_slots_accept is what the checker told of the one sandbox of the image that lies in that memory, and
 *   nobody writes the image while the version is kept.
 * - Where sfi_slots_write answers true it writes so many bytes of the current version's code at once, the next ones; and it
 *   writes no other byte where code may lie.
 * - It enters a sandbox where sfi_slots_may_enter answers true alone, with the current version's bounds.
 */
#ifndef SFI_SLOTS_H
#define SFI_SLOTS_H

#include <stdbool.h>
#include <stddef.h>
#include <stdint.h>

#ifdef __cplusplus
extern "C" {
#endif

enum sfi_slot_state {
    SFI_SLOT_EMPTY,     /* there is no version */
    SFI_SLOT_RECEIVING, /* its image's bytes come */
    SFI_SLOT_ACCEPTED,  /* and were accepted */
    SFI_SLOT_ON_TRIAL,  /* it runs, and has to report */
    SFI_SLOT_GOOD       /* it has reported */
};

/* What the checker told of a version: as in struct sfi_part. */
struct sfi_bounds {
    uint32_t format, code_base, code_size, data_base, data_size;
};

/* What its state doesn't speak of is 0, but for `memory`. */
struct sfi_version {
    uint32_t state;     /* one of enum sfi_slot_state */
    uint32_t number;    /* counted from 1 in each slot */
    uint32_t turns;     /* in which it has to report */
    uint32_t memory;    /* which of the slot's two memories has its image: 0 or 1 */
    struct sfi_bounds bounds;
};

struct sfi_slot {
    struct sfi_version current, other;
    uint32_t updates;   /* how many were accepted */
    uint32_t written;   /* bytes of the current version's code that are written to their place, from its front on */
};

/* Leaves nothing in any slot. */
void sfi_slots_clear(struct sfi_slot *slots, size_t count);
/* Drops the version that isn't current: bytes come into its memory. Not while the current one is on trial. */
bool sfi_slots_begin(struct sfi_slot *slots, size_t count, uint32_t number);
/* They were accepted. Not where the bounds meet those of a version that another slot keeps. */
bool sfi_slots_accept(struct sfi_slot *slots, size_t count, uint32_t number, const struct sfi_bounds *bounds);
/* They were refused. */
bool sfi_slots_refuse(struct sfi_slot *slots, size_t count, uint32_t number);
/* The accepted version becomes current, and is on trial for so many turns; nothing of it is written yet. */
bool sfi_slots_try(struct sfi_slot *slots, size_t count, uint32_t number, uint32_t turns);
/* The current version, on trial or good, is to be written to its place, again or for the first time. */
bool sfi_slots_place(struct sfi_slot *slots, size_t count, uint32_t number);
/* The next `bytes` bytes of it are to be written. Not more than it has. */
bool sfi_slots_write(struct sfi_slot *slots, size_t count, uint32_t number, uint32_t bytes);
/* A turn of a trial is over. Not the last one: then roll back. */
bool sfi_slots_turn(struct sfi_slot *slots, size_t count, uint32_t number);
/* The version on trial has reported, and is good. */
bool sfi_slots_confirm(struct sfi_slot *slots, size_t count, uint32_t number);
/* Drops the version on trial. The other one, or none, is current again, and nothing of it is written. */
bool sfi_slots_roll_back(struct sfi_slot *slots, size_t count, uint32_t number);
/* Drops both versions. Not unless the current one is good. */
bool sfi_slots_remove(struct sfi_slot *slots, size_t count, uint32_t number);
/* Whether the current version may be entered at pc: it is on trial or good, all of its code is written, and a bundle of it
   begins there, or in the third and fourth format a word. */
bool sfi_slots_may_enter(const struct sfi_slot *slots, size_t count, uint32_t number, uint32_t pc);

#ifdef __cplusplus
}
#endif

#endif
