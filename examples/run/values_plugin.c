/* A plug-in whose functions take and give values, by the signatures that sfi-cc writes into its image. */
#include "gates.h"

SFI_IMPORT void note(const char *text); /* the host's */
SFI_IMPORT int pick(SFI_BYTES(bytes)); /* the place of one of them */

SFI_EXPORT const char *rest(const char *text) {
    note(text);
    return *text ? text + 1 : 0;
}

SFI_EXPORT void reverse(SFI_BUFFER(bytes)) {
    for (unsigned from = 0, to = bytes_size; from + 1 < to; from++) {
        unsigned char kept = bytes[from];
        bytes[from] = bytes[--to];
        bytes[to] = kept;
    }
}

SFI_EXPORT int picked(SFI_BYTES(bytes)) { return bytes[pick(bytes, bytes_size)]; }

SFI_EXPORT long long product(int a, long long b) { return a * b; }

SFI_EXPORT float half(double number) { return number / 2; }

SFI_EXPORT signed char opposite(unsigned char number) { return -number; } /* modulo 256 */
