/*
 * Snapshots: the sandboxes of a world as bytes, and a world again that goes on as that would have. It is C99, or C++, over the
 * calls of sfi_run.h: whatever the bytes are, each sandbox of the world stays in its own data, since those calls see to it. Who can
 * write a snapshot decides what its sandboxes' data are and where their code goes on, and no more.
 *
 *     const size_t size = sfi_run_snapshot_size(&world);
 *     uint8_t *bytes = (uint8_t *)malloc(size);
 *     taken = sfi_run_take(&world, digest, bytes, size);
 *
 *     sfi_run_load(image, length, &again, &verdict); // of the same image, in another process, too
 *     restored = sfi_run_restore(&again, digest, bytes, size, NULL);
 *
 * `digest` is the SHA-256 of the image's bytes, by a function of the host's own. Where nothing but this header reads the snapshot, any 32
 * bytes will do by which the host knows the image.
 *
 * The bytes are those of sfi_run.snapshots in Python. Numbers are little-endian, of 32 bits but for the steps:
 *
 *     SNAP, the version 1, the image's SHA-256 (32 bytes), the number of sandboxes
 *     of each: kind (SFI_RUN_READY, _CALL, _EXITED or _STOPPED), the number of its exit or 0, pc, x0 to x31, steps (64 bits), the
 *              base and size of its data, the data
 *     the CRC-32 of all before (that of zlib)
 */
#ifndef SFI_RUN_SNAPSHOT_H
#define SFI_RUN_SNAPSHOT_H

#include <string.h>

#include "sfi_run.h"

#ifdef __cplusplus
extern "C" {
#endif

enum sfi_run_snapshot {
    SFI_RUN_SNAPSHOT_DONE = 0,
    SFI_RUN_SNAPSHOT_NOT_NOW = 1, /* a sandbox has trapped, or stands within a bundle (in words: between the steps of an address): take
                                     some more steps, or go on to the next call */
    SFI_RUN_SNAPSHOT_NO_ROOM = 2,
    SFI_RUN_SNAPSHOT_BROKEN = 3,      /* the bytes are no whole snapshot of this version */
    SFI_RUN_SNAPSHOT_OTHER_IMAGE = 4, /* they are one of another image */
    SFI_RUN_SNAPSHOT_WRONG = 5        /* a sandbox can't stand as they say */
};

enum { SFI_RUN_SNAPSHOT_HEAD = 44, SFI_RUN_SNAPSHOT_SANDBOX = 156, SFI_RUN_SNAPSHOT_SUM = 4, SFI_RUN_SNAPSHOT_VERSION = 1 };

static inline void sfi_run_put_word(uint8_t *at, uint32_t word) {
    at[0] = (uint8_t)word, at[1] = (uint8_t)(word >> 8), at[2] = (uint8_t)(word >> 16), at[3] = (uint8_t)(word >> 24);
}

static inline uint32_t sfi_run_word_at(const uint8_t *at) {
    return at[0] | (uint32_t)at[1] << 8 | (uint32_t)at[2] << 16 | (uint32_t)at[3] << 24;
}

/* The CRC-32 of ISO 3309. table[k] is the remainder of a byte k with 32 bits behind it. */
static inline uint32_t sfi_run_sum(const uint8_t *bytes, size_t length) {
    uint32_t table[256], sum = UINT32_MAX;
    for (uint32_t k = 0; k < 256; k++) {
        table[k] = k;
        for (int bit = 0; bit < 8; bit++)
            table[k] = table[k] >> 1 ^ (table[k] & 1 ? 0xedb88320u : 0);
    }
    for (size_t k = 0; k < length; k++)
        sum = sum >> 8 ^ table[(sum ^ bytes[k]) & 255];
    return ~sum;
}

/* How many bytes a snapshot of a world takes. */
static inline size_t sfi_run_snapshot_size(struct sfi_run_world *world) {
    struct sfi_run_region data;
    size_t size = SFI_RUN_SNAPSHOT_HEAD + SFI_RUN_SNAPSHOT_SUM;
    for (uint32_t sandbox = 0; sfi_run_data(world, sandbox, &data); sandbox++)
        size += SFI_RUN_SNAPSHOT_SANDBOX + data.size;
    return size;
}

/* Whether a host may have a sandbox go on with the registers that it has. Nothing changes. */
static inline bool sfi_run_may_go_on(struct sfi_run_world *world, uint32_t sandbox, uint32_t kind,
                                     const struct sfi_run_registers *registers) {
    if (kind == SFI_RUN_EXITED)
        return true; /* it stands at the call by which it exited */
    if (kind == SFI_RUN_TRAPPED || !sfi_run_set_registers(world, sandbox, registers))
        return false;
    return kind != SFI_RUN_STOPPED || sfi_run_stop(world, sandbox);
}

/* Writes what a snapshot has of a sandbox. Whether it can be taken now. */
static inline bool sfi_run_take_one(struct sfi_run_world *world, uint32_t sandbox, struct sfi_run_region data, uint8_t *to) {
    struct sfi_run_registers registers;
    struct sfi_run_event event;
    const uint64_t steps = sfi_run_steps(world, sandbox);
    const uint32_t kind = sfi_run_event(world, sandbox, &event);
    if (!sfi_run_registers(world, sandbox, &registers) || !sfi_run_may_go_on(world, sandbox, kind, &registers))
        return false;
    sfi_run_put_word(to, kind);
    sfi_run_put_word(to + 4, kind == SFI_RUN_EXITED ? event.number : 0);
    sfi_run_put_word(to + 8, registers.pc);
    for (uint32_t k = 0; k < 32; k++)
        sfi_run_put_word(to + 12 + 4 * k, registers.x[k]);
    sfi_run_put_word(to + 140, (uint32_t)steps);
    sfi_run_put_word(to + 144, (uint32_t)(steps >> 32));
    sfi_run_put_word(to + 148, data.base);
    sfi_run_put_word(to + 152, data.size);
    return sfi_run_read(world, sandbox, data.base, data.size, to + SFI_RUN_SNAPSHOT_SANDBOX, data.size);
}

/*
 * Takes a snapshot of a world of the image whose SHA-256 is `digest`: writes its bytes to `bytes`, where there is room for `room`,
 * at least sfi_run_snapshot_size. In the world nothing changes. Returns SFI_RUN_SNAPSHOT_DONE, _NOT_NOW or _NO_ROOM.
 */
static inline enum sfi_run_snapshot sfi_run_take(struct sfi_run_world *world, const uint8_t digest[32], uint8_t *bytes, size_t room) {
    const size_t size = sfi_run_snapshot_size(world);
    struct sfi_run_region data;
    uint32_t sandbox;
    if (room < size)
        return SFI_RUN_SNAPSHOT_NO_ROOM;
    memcpy(bytes, "SNAP", 4);
    sfi_run_put_word(bytes + 4, SFI_RUN_SNAPSHOT_VERSION);
    memcpy(bytes + 8, digest, 32);
    uint8_t *to = bytes + SFI_RUN_SNAPSHOT_HEAD;
    for (sandbox = 0; sfi_run_data(world, sandbox, &data); sandbox++) {
        if (!sfi_run_take_one(world, sandbox, data, to))
            return SFI_RUN_SNAPSHOT_NOT_NOW;
        to += SFI_RUN_SNAPSHOT_SANDBOX + data.size;
    }
    sfi_run_put_word(bytes + 40, sandbox);
    sfi_run_put_word(to, sfi_run_sum(bytes, size - SFI_RUN_SNAPSHOT_SUM));
    return SFI_RUN_SNAPSHOT_DONE;
}

/* Has a sandbox stand as those bytes say. Whether it can. */
static inline bool sfi_run_put_back(struct sfi_run_world *world, uint32_t sandbox, struct sfi_run_region data, const uint8_t *from) {
    const uint32_t kind = sfi_run_word_at(from);
    struct sfi_run_registers registers, found;
    struct sfi_run_event event;
    registers.pc = sfi_run_word_at(from + 8);
    for (uint32_t k = 0; k < 32; k++)
        registers.x[k] = sfi_run_word_at(from + 12 + 4 * k);
    if (!sfi_run_write(world, sandbox, data.base, from + SFI_RUN_SNAPSHOT_SANDBOX, data.size) ||
        !sfi_run_set_registers(world, sandbox, &registers))
        return false;
    if (kind == SFI_RUN_EXITED)
        sfi_run_exit(world, sandbox, sfi_run_word_at(from + 4));
    else if (kind == SFI_RUN_STOPPED)
        sfi_run_stop(world, sandbox);
    return sfi_run_event(world, sandbox, &event) == kind && kind != SFI_RUN_TRAPPED && sfi_run_registers(world, sandbox, &found) &&
           !memcmp(&found, &registers, sizeof found);
}

/*
 * Has the sandboxes of a world, which was loaded of the image whose SHA-256 is `digest`, stand as those of a snapshot did. Their steps
 * are counted on as they are: steps[k], where `steps` isn't NULL, is what those of the sandbox k then had been. Returns
 * SFI_RUN_SNAPSHOT_DONE, _BROKEN or _OTHER_IMAGE, with which nothing changes, or _WRONG, after which the world is to be freed.
 */
static inline enum sfi_run_snapshot sfi_run_restore(struct sfi_run_world *world, const uint8_t digest[32], const uint8_t *bytes,
                                                    size_t length, uint64_t *steps) {
    struct sfi_run_region data;
    uint32_t sandbox;
    if (length < SFI_RUN_SNAPSHOT_HEAD + SFI_RUN_SNAPSHOT_SUM || memcmp(bytes, "SNAP", 4) != 0 ||
        sfi_run_word_at(bytes + 4) != SFI_RUN_SNAPSHOT_VERSION ||
        sfi_run_word_at(bytes + length - SFI_RUN_SNAPSHOT_SUM) != sfi_run_sum(bytes, length - SFI_RUN_SNAPSHOT_SUM))
        return SFI_RUN_SNAPSHOT_BROKEN;
    if (memcmp(bytes + 8, digest, 32) != 0)
        return SFI_RUN_SNAPSHOT_OTHER_IMAGE;
    if (length != sfi_run_snapshot_size(world) || sfi_run_word_at(bytes + 40) != sfi_run_count(world))
        return SFI_RUN_SNAPSHOT_BROKEN;
    const uint8_t *from = bytes + SFI_RUN_SNAPSHOT_HEAD;
    for (sandbox = 0; sfi_run_data(world, sandbox, &data); sandbox++) {
        if (sfi_run_word_at(from + 148) != data.base || sfi_run_word_at(from + 152) != data.size ||
            !sfi_run_put_back(world, sandbox, data, from))
            return SFI_RUN_SNAPSHOT_WRONG;
        if (steps != NULL)
            steps[sandbox] = sfi_run_word_at(from + 140) | (uint64_t)sfi_run_word_at(from + 144) << 32;
        from += SFI_RUN_SNAPSHOT_SANDBOX + data.size;
    }
    return SFI_RUN_SNAPSHOT_DONE;
}

#ifdef __cplusplus
}
#endif

#endif
