// Exceptions in a program in which nothing catches any: it has no unwinder, and what is thrown ends it. All of this is weak, so
// that libstdc++'s own may take its place, and linked before that is looked for.
#include <cstdlib>
#include "unwind-cxx.h"
#include "ended.h"

#define INSTEAD __attribute__((weak))

extern "C" {

INSTEAD void *__cxxabiv1::__cxa_allocate_exception(std::size_t size) noexcept {
    static char room[256] __attribute__((aligned));
    void *object = std::malloc(size);
    return object || size > sizeof room ? object : room;
}

INSTEAD void __cxxabiv1::__cxa_free_exception(void *) noexcept {}

INSTEAD void __cxxabiv1::__cxa_throw(void *object, std::type_info *type, void (*)(void *)) {
    sandbox::ended(*type, object);
}

// These are never reached: nothing leads to what begins with them.

INSTEAD void __cxxabiv1::__cxa_rethrow() {
    sandbox::ended();
}

INSTEAD void *__cxxabiv1::__cxa_begin_catch(void *) noexcept {
    sandbox::ended();
}

INSTEAD void __cxxabiv1::__cxa_end_catch() {}

INSTEAD void _Unwind_Resume(struct _Unwind_Exception *) {
    sandbox::ended();
}

INSTEAD _Unwind_Reason_Code __gxx_personality_v0(int, _Unwind_Action, _Unwind_Exception_Class, _Unwind_Exception *, _Unwind_Context *) {
    return _URC_END_OF_STACK;
}

} // extern "C"

INSTEAD void __gnu_cxx::__verbose_terminate_handler() {
    sandbox::ended();
}
