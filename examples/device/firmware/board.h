/* QEMU's `virt` in M-mode, with one hart: what the firmwares of this folder share, and is no part of the library. */
#ifndef BOARD_H
#define BOARD_H

#include "../store/cfi_flash.h"
#include "sfi_device_plugins.h"

#ifdef __cplusplus
extern "C" {
#endif

/* Memory: the firmware lies from 80000000 on (board.ld). Of each plug-in the next has its own so much further on. */
enum {
    CODE = 0x80100000, CODE_STEP = 0x10000,     /* where code runs */
    IMAGE = 0x80200000, IMAGE_STEP = 0x40000,   /* images while they are judged and run */
    DATA = 0x80404000, DATA_STEP = 0x4000,      /* with guard zones on both sides */
    DATA_SIZE = 4096,
    INBOX = 0x80500000, INBOX_STEP = 0x80000    /* updates that have come: QEMU loads them */
};

/* Flash: of each plug-in two sectors of records, and an area for each version. */
enum { SECTOR = 0x40000, PLUGIN_FLASH = 4 * SECTOR };

/* An update as it comes. Its image lies behind it */
struct update {
    struct sfi_device_claim claim; /* a length of 0 ends the inbox */
    uint8_t signature[SFI_DEVICE_SIGNATURE_SIZE];
    uint8_t image[];
};
const struct update *next_update(uint32_t plugin); /* or NULL */
/* In the place of a signature is a digest that begins with a key, which only the vendor and the device know, and the plug-in's
   number, at host */
bool is_signed(void *host, const struct sfi_device_claim *claim, const uint8_t *signature);

void print(const char *text);
void print_number(uint32_t number);
void tell(uint32_t plugin, const char *what, uint32_t number);  /* a line */
void need(bool is_right, const char *what);                     /* or else the firmware ends */
void interrupt_after(uint32_t ticks); /* of 100 ns */
#ifdef __cplusplus
[[noreturn]]
#else
_Noreturn
#endif
void power_off(void);

void *memset(void *to, int byte, size_t length);
void *memcpy(void *to, const void *from, size_t length);

#ifdef __cplusplus
}
#endif

#endif
