/* The second flash of QEMU's `virt`. */
#ifndef CFI_FLASH_H
#define CFI_FLASH_H

#include "sfi_device_store.h"

#ifdef __cplusplus
extern "C" {
#endif

extern const struct sfi_device_flash cfi_flash;

/* The firmware's: called before each write of the flash. Cuts the power there, if it is time. */
void count_write(void);

#ifdef __cplusplus
}
#endif

#endif
