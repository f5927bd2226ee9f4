/* The compiler's own: gcc's stdint.h asks for that of a C library, unless it has -ffreestanding. */
#ifdef __clang__
#include_next <stdint.h>
#else
#include <stdint-gcc.h>
#endif
