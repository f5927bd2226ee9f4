/* A second copy of the host's file in one program, as of another plug-in that is linked into it. */
#ifndef HOSTILE_OTHER_H
#define HOSTILE_OTHER_H
#include <stddef.h>
#include <stdint.h>

/* Whether a run by that copy, for so many rounds and to that ending, comes to what the translation does. */
int is_other_right(const uint8_t *bytes, size_t size, uint32_t rounds, int ending);

#endif
