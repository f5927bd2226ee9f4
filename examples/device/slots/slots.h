/* Plug-ins that come and go, by the slots of the library. */
#ifndef SLOTS_H
#define SLOTS_H

#include "../host.h"
#include "sfi_device_slots.h"

#ifdef NO_PMP
#error "an update may be code in words, which guard zones that trap have to hold"
#endif

#ifndef TRIAL_TURNS
#define TRIAL_TURNS 50          /* in which a new version has to report */
#endif

enum {
    SLOTS = 4,
    IMAGE_MOST = 1 << 17,       /* bytes of an image */
    SLOT_DATA = 4096,           /* bytes of a plug-in's data region */
    SLOT_CODE = 1 << 16         /* at most, of the code of one that is moved to its slot */
};

/* slots.c */
extern struct world world;                  /* plug-in N is that of slot N */
extern const struct sfi_device_slots slots;
void start_slots(void);                     /* closes the guard zones of all of them */
void feed_watchdog(void);
extern uint32_t longest_unfed;              /* instructions between two feeds */
extern uint32_t fed_between_pieces;         /* how often, of images that were judged or placed */

/* shell.c */
void tell_news(uint32_t number, enum sfi_device_news news);     /* a line */

#endif
