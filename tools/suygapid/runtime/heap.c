/* The heap: the memory between the objects and the stack's room. It is given out from the objects' end on, to whoever asks: malloc of
   the libraries, and Rust's allocator. */
typedef unsigned size;

extern char __sfi_end[]; /* of the objects */
char *__heap_end = __sfi_end; /* of what is given out: code by `sfi-cc --debug` compares the stack pointer with it */
size __heap_size = 1; /* elf/image.py writes it */

/* Gives out the next bytes, or takes back the last, where the number is negative, and answers where the heap ended before. NULL where
   there is no room, also since the stack has more than its own. */
void *__heap_more(int more) {
    char *end = __heap_end, *stack;
    __asm__("mv %0, sp" : "=r"(stack));
    size used = end - __sfi_end, room = stack - __sfi_end;
    if (room > __heap_size)
        room = __heap_size;
    if (more > 0 ? used > room || (size)more > room - used : used < -(size)more)
        return 0;
    __heap_end = end + more;
    return end;
}
