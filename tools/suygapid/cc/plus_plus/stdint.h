/* For C++ without a C library: the header of C++ in gcc asks for the library's, and this is the one that gcc has for C. */
#include <stdint-gcc.h>
