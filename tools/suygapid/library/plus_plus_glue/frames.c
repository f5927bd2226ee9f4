// How GCC's unwinder finds the frame of a function: by its own search, to which all frames that the linker kept are told first.
#include "unwind-dw2-fde.c"

extern const char __sfi_frames[]; // in exceptions.ld

__attribute__((constructor(101))) static void tell_frames(void) {
    static struct object all;
    __register_frame_info(__sfi_frames, &all);
}
