// What std::terminate does where a program sets no handler.
#include "unwind-cxx.h"
#include "ended.h"

void __gnu_cxx::__verbose_terminate_handler() {
    using namespace __cxxabiv1;
    __cxa_exception *caught = __cxa_get_globals()->caughtExceptions;
    if (!caught || !__is_gxx_exception_class(caught->unwindHeader.exception_class))
        sandbox::ended();
    sandbox::ended(*__get_exception_header_from_obj(__get_object_from_ambiguous_exception(caught))->exceptionType,
                   __get_object_from_ambiguous_exception(caught));
}
