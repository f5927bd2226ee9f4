/* What the library is told of this board. */
#define SFI_DEVICE_IN_M_MODE            1
#define SFI_DEVICE_JUMPS_TO_TRAPPED     1       /* start.S has one jump in each vector */
#define SFI_DEVICE_PMP_ENTRIES          16
