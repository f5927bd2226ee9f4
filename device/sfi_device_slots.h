/*
 * Slots: plug-ins, each from an image of its own, that come and go while their neighbours run. Each slot keeps two versions of
 * its plug-in: an update takes the place of the one that isn't current. A new version runs on trial: where it can't be placed,
 * stops, or uses up its turns before it has reported, the one before it is started again. Which version that is, what may be
 * written where and what may be entered are proved decisions (sfi_slots.h, decisions.c): what runs is what was accepted, in its
 * own place, apart from each version that another slot keeps. All of this lies in memory: after a reset no slot has a version.
 */
#ifndef SFI_DEVICE_SLOTS_H
#define SFI_DEVICE_SLOTS_H

#include "sfi_device.h"
#include "sfi_slots.h" /* of crates/sfi_slots: what is kept of a slot */

#ifdef __cplusplus
extern "C" {
#endif

enum { SFI_DEVICE_VERSIONS = 2, SFI_DEVICE_WRITTEN_MOST = 4096 };

struct sfi_device_slot {
    /* The firmware's */
    struct sfi_device_sandbox *sandbox;             /* what runs of its current version */
    uint32_t data_base;                             /* where its plug-ins have their data */
    uint32_t moved_to;                              /* and one for any place its code */
    uint8_t *images[SFI_DEVICE_VERSIONS];           /* memory of an image each, which the firmware alone writes */
    /* The library's: what the image in each memory says, where a version is kept there, and else 0 */
    struct sfi_device_part parts[SFI_DEVICE_VERSIONS];
};

enum sfi_device_news { SFI_DEVICE_NO_REPORT, SFI_DEVICE_OLDER_VERSION };

/* What the firmware gives. Its guard zones are closed before the first call, and its code memory is nobody else's. Its functions
   call none of these. */
struct sfi_device_slots {
    const struct sfi_device_firmware *firmware;
    struct sfi_device_slot *slots;
    struct sfi_slot *decided;                       /* as many: the library's */
    uint32_t count, data_size, code_from, code_to;  /* of data each plug-in has data_size; code lies between these addresses */
    uint32_t trial_turns, turn_ticks;
    /* Writes at most SFI_DEVICE_WRITTEN_MOST bytes of code where they are executed from that address on: a flash, say */
    void (*write_code)(uint32_t address, const uint8_t *bytes, uint32_t length);
    /* Feeds the watchdog: between pieces of an image that is judged or placed, in which the slots have turns */
    void (*between_pieces)(void);
    /* The slot's sandbox is emptied: so is what the firmware keeps for it */
    void (*emptied)(uint32_t number);
    /* A version on trial has stopped, used up its turns, or wasn't placed; then the older one runs, if there is one */
    void (*tells)(uint32_t number, enum sfi_device_news news);
};

/* What came of an update. */
enum sfi_device_update {
    SFI_DEVICE_STARTED,             /* it is on trial */
    SFI_DEVICE_UPDATE_REFUSED,      /* the checker's status and the verdict say why; NO_ZONE_AT_ZERO, of an accepted image, that it
                                       is in the fourth format */
    SFI_DEVICE_NOT_ONE_PLUGIN,      /* it has more than one sandbox */
    SFI_DEVICE_NOT_ITS_PLACE,       /* its code isn't where plug-ins' code is, or its data aren't the slot's */
    SFI_DEVICE_NOT_APART,           /* it meets a version that another slot keeps */
    SFI_DEVICE_NOT_BEGUN,           /* the current version is on trial, or none was dropped for it: nothing was judged */
    SFI_DEVICE_NOT_PLACED           /* sfi_device_is_code_in_place denies that its code was written: it is rolled back */
};

/* The first call: no slot has a version. */
void sfi_device_clear_slots(const struct sfi_device_slots *all);
/* NULL where there is no slot of that number; of each call below it is as if that had no version. */
const struct sfi_version *sfi_device_current(const struct sfi_device_slots *all, uint32_t number);
/* The first slot that has no version; `count` where each has one. */
uint32_t sfi_device_free_slot(const struct sfi_device_slots *all);
/* Drops the version that an update takes the place of, and answers the memory for its image. NULL, and nothing is dropped,
   while the current version is on trial. */
uint8_t *sfi_device_begin_update(const struct sfi_device_slots *all, uint32_t number);
/* Judges and starts what lies there. `moves`: the image is for any place, and is moved to the slot's before it is started.
   status and verdict are written unless it is NOT_BEGUN. */
enum sfi_device_update sfi_device_end_update(const struct sfi_device_slots *all, uint32_t number, uint32_t length, bool moves,
                                             enum sfi_device_status *status, struct sfi_verdict *verdict);
/* One turn for each plug-in that is ready. */
void sfi_device_run_slots(const struct sfi_device_slots *all);
/* The current version from its start, with new data. False, and nothing is changed, where there is none, or it is on trial.
   False, and the sandbox is empty, where sfi_device_is_code_in_place denies that its code was written. */
bool sfi_device_start_slot(const struct sfi_device_slots *all, uint32_t number);
/* The current version has reported. False where it isn't on trial. */
bool sfi_device_confirm_slot(const struct sfi_device_slots *all, uint32_t number);
/* False where it isn't ready. */
bool sfi_device_kill_slot(const struct sfi_device_slots *all, uint32_t number);
/* Enters the current version, which has stopped and is good, as sfi_device_enter_again does. */
bool sfi_device_call_slot(const struct sfi_device_slots *all, uint32_t number, uint32_t pc,
                          const uint32_t arguments[SFI_DEVICE_ARGUMENTS]);
/* Drops its versions: another slot's plug-in may then have their place. False where it has none, or one on trial. */
bool sfi_device_remove_slot(const struct sfi_device_slots *all, uint32_t number);

#ifdef __cplusplus
}
#endif

#endif
