/*
 * The port for a processor with Sv32 pages, whose host runs in S-mode: one page table. M-mode makes it, in physical addresses,
 * before there is paging; then the firmware writes satp, and executes sfence.vma: entries of PMP were written, too.
 */
#ifndef SFI_DEVICE_SV32_H
#define SFI_DEVICE_SV32_H

#include "sfi_device.h"

#ifdef __cplusplus
extern "C" {
#endif

enum { SFI_DEVICE_SV32_WINDOW = 1 << 16 };

/* What the firmware gives; small_count is 0 at first. */
struct sfi_device_sv32 {
    uint32_t host_from, host_to;    /* addresses in which no sandbox may lie */
    /* So many bytes for pages of data regions below 4096 bytes, aligned to them: PMP closes all of them but those regions, so
       that a guard zone may begin within a page */
    uint8_t *window;
    uint8_t *pool, *pool_end;       /* whole pages: the table's, and sandboxes' */
    uint32_t small_count;
};

/* Maps a sandbox, with its code and first data. DONE, CODE_IS_HOST, DATA_IS_HOST, NO_ZONE_AT_ZERO where the host lies
   in that of the fourth format, NO_ENTRY where no entry of PMP or page of
   the window is left for a data region below 4096 bytes, or NO_MEMORY where no page is. */
struct sfi_device_fault sfi_device_sv32_map(struct sfi_device_sv32 *space, const struct sfi_device_part *part);
/* A page of the host's own that can be executed there, as the host can write it; NULL where none is left, or the host's own
   memory is mapped there. The address is no sandbox's. */
uint8_t *sfi_device_sv32_page_of_code(struct sfi_device_sv32 *space, uint32_t address);
/* Where the host has a byte of code or data; NULL where sfi_device_sv32_map has mapped none. */
void *sfi_device_sv32_at(struct sfi_device_sv32 *space, uint32_t address);
/* A device's page at another address, from host_from to host_to. False, and nothing is mapped, where that lies elsewhere or
   is mapped already, or no page is left. */
bool sfi_device_sv32_map_device(struct sfi_device_sv32 *space, uint32_t address, uint32_t device);
/* The host's own memory, at its physical addresses, in multiples of 4 MiB. False where they aren't such, don't lie from
   host_from to host_to, or something is mapped there already. */
bool sfi_device_sv32_map_host(const struct sfi_device_sv32 *space, uint32_t from, uint32_t to);
/* Protects the window, and tells what satp takes. DONE, OTHER_RULES or ENTRY_DIFFERS. */
struct sfi_device_fault sfi_device_sv32_finish(const struct sfi_device_sv32 *space, uint32_t *satp);

#ifdef __cplusplus
}
#endif

#endif
