/* What heap.c takes of stdbool.h, where there is no C library. */
#pragma once
#define bool _Bool
