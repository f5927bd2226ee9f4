/* The interrupt of software_interrupt.c as one that the vendor's file doesn't know, the fourth time. */
#define KNOWN 3
#include "software_interrupt.c"
