/* What code by -fstack-protector compares at a function's end, and what it then calls where the word above its arrays has
   changed. The word is the same in each run, as a sandbox has no random numbers: it finds mistakes, and stops nobody who knows
   it. None of its bytes is 0, so a string's end that is written over the first one is seen, too. */
const unsigned __stack_chk_guard = 0xd35aacc7;

_Noreturn void __stack_chk_fail(void) {
    __builtin_trap();
}
