/* What the heap takes of stdint.h, where there is no C library. */
#pragma once
typedef __UINT8_TYPE__ uint8_t;
typedef __UINT64_TYPE__ uint64_t;
typedef __UINTPTR_TYPE__ uintptr_t;
