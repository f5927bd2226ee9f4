/*
 * Plug-ins from flash: what a firmware over sfi_device.h and sfi_device_store.h does at its start, in each round and with an
 * update, so that it is left with its board, its services and the way by which updates come.
 *
 *     open -> of each plug-in the version that its store chooses runs; then run, for ever
 *     may_update; begin, write .., finish -> an update, whose version is started
 *
 * A version is kept once it has called sfi_device_report. One that isn't accepted, or lies in another place, that stops before it
 * has reported, or has had its turns by then, is rejected, and the older one is started. What is judged is a copy in memory, while
 * the others have turns. Plug-ins run at addresses that are the host's own, too: where it is in M-mode.
 *
 * Within a call of these, as in a service or a function of a flash, run does nothing, and each other answers that it is too early.
 */
#ifndef SFI_DEVICE_PLUGINS_H
#define SFI_DEVICE_PLUGINS_H

#include "sfi_device.h"
#include "sfi_device_store.h"

#ifdef __cplusplus
extern "C" {
#endif

enum sfi_device_plugin_news {
    SFI_DEVICE_PLUGIN_STARTS,
    SFI_DEVICE_PLUGIN_IS_REFUSED,   /* it isn't accepted, or in the fourth format, or may not lie where it does, or its code can't
                                       be written */
    SFI_DEVICE_PLUGIN_IS_KEPT,
    SFI_DEVICE_PLUGIN_GAVE_UP       /* it stopped, or had its turns, before it reported */
};

/* Where each version of a plug-in lies, as its image says: its code may be shorter. Nothing else writes there. */
struct sfi_device_place {
    uint32_t code_base, code_size, data_base, data_size;
};

struct sfi_device_plugin {
    /* The firmware's */
    struct sfi_device_store store;      /* its first fields, as sfi_device_store.h says; its flash is that of this store alone */
    struct sfi_device_place place;
    uint8_t *image;                     /* memory of store.area_size bytes, which the firmware alone writes */
    /* The library's, 0 at first */
    struct sfi_device_sandbox sandbox;
    uint32_t version;                   /* the sequence number of the version that was started, or 0 */
    uint32_t turns;                     /* that it has had since then, until it is kept */
    bool is_kept;
};

struct sfi_device_plugins {
    /* The firmware's: its host is that of these functions, too, each of which may be NULL */
    const struct sfi_device_firmware *firmware;
    struct sfi_device_plugin *plugins;  /* sandbox N of sfi_device_close_guards is the Nth */
    uint32_t count, turn_ticks;
    uint32_t trial_turns;               /* in which a version has to report, after each start */
    /* Writes code where it is executed, in a flash, say; NULL: that is memory */
    void (*write_code)(uint32_t address, const uint8_t *bytes, uint32_t length);
    void (*feed)(void *host);           /* the watchdog: before each round of turns, also between pieces of an image */
    void (*tells)(void *host, uint32_t number, enum sfi_device_plugin_news news, uint32_t version);
    /* The library's, 0 at first */
    bool is_open, is_working;
};

/* A service: the caller works. It is known until its sandbox is emptied. */
sfi_device_service sfi_device_report;

/* Opens the stores, closes the guard zones and tries them, and starts what the stores choose. After each reset, first, with
   interrupts off but the timer's. DONE; BAD_PLACE, of plug-in `other`, where its code, its data with their guard zones or its image's
   memory meet another's; BAD_STORE; what sfi_device_close_guards, _write_protection and _try_guards answer; or BUSY. */
struct sfi_device_fault sfi_device_plugins_open(struct sfi_device_plugins *all);
/* A turn for each plug-in that is ready; then each that has reported is kept, and each that doesn't work is rejected. */
void sfi_device_plugins_run(struct sfi_device_plugins *all);
/* Whether the plug-in of that number takes an update: its version is kept, or it has none. */
bool sfi_device_plugins_may_update(const struct sfi_device_plugins *all, uint32_t number);
/* These three are sfi_device_store_begin, _write and _finish, which starts the new version then; TOO_EARLY where it takes none.
   Between them others run on, and so does the plug-in's older version. */
enum sfi_device_store_status sfi_device_plugins_begin(struct sfi_device_plugins *all, uint32_t number,
                                                      const struct sfi_device_claim *claim,
                                                      const uint8_t signature[SFI_DEVICE_SIGNATURE_SIZE]);
enum sfi_device_store_status sfi_device_plugins_write(struct sfi_device_plugins *all, uint32_t number, const uint8_t *bytes,
                                                      uint32_t length);
enum sfi_device_store_status sfi_device_plugins_finish(struct sfi_device_plugins *all, uint32_t number);

#ifdef __cplusplus
}
#endif

#endif
