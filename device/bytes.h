/* What is asked of C. */
#ifndef SFI_DEVICE_BYTES_H
#define SFI_DEVICE_BYTES_H

#include <stddef.h>

void *memset(void *to, int byte, size_t length);
void *memcpy(void *restrict to, const void *restrict from, size_t length);

#endif
