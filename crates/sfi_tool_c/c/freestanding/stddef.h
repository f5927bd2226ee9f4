/* What the heap takes of stddef.h, where there is no C library. */
#pragma once
typedef __SIZE_TYPE__ size_t;
#define NULL ((void *)0)
