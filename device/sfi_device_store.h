/*
 * Updates that survive: the two latest versions of a plug-in in flash, and a record of them. A cut of power at any write leaves
 * the record as it was before that write or as it is after it, and the version that runs is touched by no update. A new version
 * runs on trial: where it isn't kept in so many starts, the older one runs again.
 *
 *     open, choose -> an area, whose image the firmware has judged and started; keep, once it works, or else reject
 *     begin, write .., finish -> a new version, which the next choose starts
 *
 * Plain C11: store.c, sha256.c and bytes.h suffice, and memory is the caller's. Records have this processor's byte order. Calls
 * of one plug-in's store come one at a time, none within a function of its flash. No pointer is NULL but where that is said.
 */
#ifndef SFI_DEVICE_STORE_H
#define SFI_DEVICE_STORE_H

#include <stdbool.h>
#include <stdint.h>

#ifdef __cplusplus
extern "C" {
#endif

enum {
    SFI_DEVICE_AREAS = 2,
    SFI_DEVICE_PAGE_MOST = 256,
    SFI_DEVICE_RECORD_SIZE = 256,
    SFI_DEVICE_DIGEST_SIZE = 32,    /* of SHA-256 */
    SFI_DEVICE_SIGNATURE_SIZE = 64  /* as of Ed25519, or of ECDSA with P-256 */
};

/* The firmware's functions of a flash. Each answers false where the flash says that it failed, as a read of a page that was
   cut does in a flash that corrects errors. It is assumed that a bit which was cut reads the same each time. */
struct sfi_device_flash {
    uint32_t sector_size;   /* a multiple of SFI_DEVICE_RECORD_SIZE */
    uint32_t page_size;     /* a power of two, at most SFI_DEVICE_PAGE_MOST */
    bool (*read)(void *host, uint32_t address, uint8_t *bytes, uint32_t length);
    bool (*erase_sector)(void *host, uint32_t address);                         /* then each bit is 1 */
    bool (*program_page)(void *host, uint32_t address, const uint8_t *bytes);   /* once after each erasure: makes bits 0 */
};

/* What the vendor says of a version, and signs. It names no plug-in: where there are several, `is_signed` has to tell whose it is,
   by its key or its host; else one's version and record can be put into another's store. */
struct sfi_device_claim {
    uint32_t sequence;          /* higher than that of any version that was taken before */
    uint32_t least_sequence;    /* once this version is kept none below that runs: at most `sequence` */
    uint32_t length;            /* of the image, in bytes */
    uint8_t digest[SFI_DEVICE_DIGEST_SIZE];
};

enum sfi_device_version_state {
    SFI_DEVICE_VERSION_NONE,
    SFI_DEVICE_VERSION_NEW,         /* whole, and not started yet */
    SFI_DEVICE_VERSION_ON_TRIAL,    /* started `starts` times, and not kept yet */
    SFI_DEVICE_VERSION_GOOD,
    SFI_DEVICE_VERSION_BAD          /* never started again */
};

struct sfi_device_stored_version {
    uint32_t state, starts;
    struct sfi_device_claim claim;
    uint8_t signature[SFI_DEVICE_SIGNATURE_SIZE];
};

/* What is written at each change, as a whole. */
struct sfi_device_record {
    uint32_t layout, generation;            /* of its sector: one more than that of the records before, in the other sector */
    uint32_t least_sequence;                /* of versions that may run: it never falls */
    struct sfi_device_stored_version versions[SFI_DEVICE_AREAS];    /* of NONE the claim is that of the last one there */
    uint8_t check[12];                      /* the first bytes of the SHA-256 of all bytes before */
};

struct sfi_device_store {
    /* The firmware's. Both sectors of records and all areas are apart, and begin where sectors do */
    const struct sfi_device_flash *flash;
    void *host;                             /* each function of the firmware gets it */
    uint32_t records;                       /* the address of two sectors, one after the other */
    uint32_t areas[SFI_DEVICE_AREAS];       /* the address of each version's image .. */
    uint32_t area_size;                     /* .. and its room, in whole sectors */
    uint32_t trial_starts;                  /* how often a version may be started before it is kept: at least 1 */
    /* Any of these may be NULL */
    bool (*is_signed)(void *host, const struct sfi_device_claim *claim, const uint8_t *signature);
    void (*watch)(void *host, bool on);     /* from a trial's start to its end a watchdog resets the device */
    uint32_t (*read_counter)(void *host);   /* a counter that can't be set back, outside this flash: the least sequence .. */
    bool (*raise_counter)(void *host, uint32_t least_sequence); /* .. number that runs. False: it failed */
    /* keep alone raises it, to no more than the kept version's sequence number. It wants is_signed: then, whatever somebody
       writes into this flash, no older version runs, and one that the vendor signs anew is taken */
    /* The library's, 0 at first */
    struct sfi_device_record record;
    uint32_t place;                         /* of the latest record, from `records` on */
    bool is_chosen;
    uint32_t chosen;                        /* the area that runs, or SFI_DEVICE_AREAS */
    bool is_taking;
    uint32_t target, taken;                 /* the area and bytes of the update that is being written */
    struct sfi_device_stored_version update;
    uint8_t page[SFI_DEVICE_PAGE_MOST];     /* its last bytes, which fill no page yet */
};

enum sfi_device_store_status {
    SFI_DEVICE_STORE_DONE = 0,
    SFI_DEVICE_STORE_BAD_SETUP,     /* sizes, addresses or functions aren't as they have to be */
    SFI_DEVICE_STORE_NO_VERSION,    /* there is none that may run */
    SFI_DEVICE_STORE_FLASH_FAILED,  /* a write, or the counter, failed: after a reset the record is the old or the new one */
    SFI_DEVICE_STORE_TOO_EARLY,     /* choose comes before it, begin before write, the running version's keep before an update */
    SFI_DEVICE_STORE_WRONG_LENGTH,  /* no byte, more than there is room for, or others than the claim says */
    SFI_DEVICE_STORE_TOO_OLD,       /* its sequence number isn't higher than the latest, or is below the least of a claim */
    SFI_DEVICE_STORE_NOT_SIGNED,
    SFI_DEVICE_STORE_DIFFERS        /* what was written hasn't the claim's digest */
};

/* Reads the latest record. After each reset, first: until it is DONE no other call is. Flash that has none has no version. */
enum sfi_device_store_status sfi_device_store_open(struct sfi_device_store *store);
/* Tells the area of the version to start: a new one, or one on trial, with one start more; else the latest good one. Before
   that it marks each bad that comes before it and can't be started: on trial too often, or not as its claim says. Where the
   flash can't be written, a good version is told all the same. Its image has record.versions[area].claim.length bytes. DONE or
   NO_VERSION. */
enum sfi_device_store_status sfi_device_store_choose(struct sfi_device_store *store, uint32_t *area);
/* The chosen version works: its trial ends, and older ones than its claim's least sequence number never run again. To be called
   at each start: of a version that is kept it writes nothing, unless power was cut before the counter was raised. */
enum sfi_device_store_status sfi_device_store_keep(struct sfi_device_store *store);
/* The chosen version doesn't work, or isn't accepted: it never runs again. choose then tells the older one. */
enum sfi_device_store_status sfi_device_store_reject(struct sfi_device_store *store);

/* Begins an update, in the area that the chosen version isn't in, if its claim may be taken; where not the flash stays as it
   is. An older update that wasn't finished is dropped. A signature of NULL is 0s. */
enum sfi_device_store_status sfi_device_store_begin(struct sfi_device_store *store, const struct sfi_device_claim *claim,
                                                    const uint8_t signature[SFI_DEVICE_SIGNATURE_SIZE]);
/* Its next bytes, any number of them. Each answer but DONE ends the update. */
enum sfi_device_store_status sfi_device_store_write(struct sfi_device_store *store, const uint8_t *bytes, uint32_t length);
/* All of it is written: if it is as its claim says it is a new version, on record. */
enum sfi_device_store_status sfi_device_store_finish(struct sfi_device_store *store);

/* SHA-256 (FIPS 180-4), of bytes in pieces. */
struct sfi_device_sha256 {
    uint32_t state[8];
    uint32_t length;        /* in bytes: less than 2^32 */
    uint8_t block[64];
};
void sfi_device_sha256_begin(struct sfi_device_sha256 *hash);
void sfi_device_sha256_add(struct sfi_device_sha256 *hash, const uint8_t *bytes, uint32_t length);
void sfi_device_sha256_end(struct sfi_device_sha256 *hash, uint8_t digest[SFI_DEVICE_DIGEST_SIZE]);

#ifdef __cplusplus
}
#endif

#endif
