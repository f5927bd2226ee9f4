/* What the library of device/ is told of `virt` and of the chips of mcu. */
#ifndef SFI_DEVICE_CONFIG_H
#define SFI_DEVICE_CONFIG_H

#ifdef MICROCONTROLLER
#include "chip.h"
#define SFI_DEVICE_IN_M_MODE            1
#define SFI_DEVICE_JUMPS_TO_TRAPPED     1       /* from the vector of mcu/start.S */
#define SFI_DEVICE_PMP_ENTRIES          PMP_ENTRIES
#else
#define SFI_DEVICE_IN_M_MODE            0
#define SFI_DEVICE_JUMPS_TO_TRAPPED     0
#define SFI_DEVICE_PMP_ENTRIES          16
#endif

#endif
