/* Calls constructors, and hands destructors to atexit. It is linked where a file has such an array. */
typedef void function(void);

extern function *const __preinit_array_start[], *const __preinit_array_end[];
extern function *const __init_array_start[], *const __init_array_end[];
extern function *const __fini_array_start[], *const __fini_array_end[];
int atexit(function *) __attribute__((weak));

const char __sfi_begin_wanted; /* a file with such an array asks for this name */

void __sfi_begin(void) {
    function *const *at;
    for (at = __preinit_array_start; at < __preinit_array_end; at++)
        (*at)();
    for (at = __fini_array_start; at < __fini_array_end; at++)
        if (atexit)
            atexit(*at);
    for (at = __init_array_start; at < __init_array_end; at++)
        (*at)();
}
