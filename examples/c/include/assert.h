/* What a program expects. This header may be read again, with NDEBUG or without. */
#undef assert
#undef ASSERT_LINE
#undef ASSERT_TEXT

#ifdef NDEBUG
#define assert(condition) ((void)0)
#else
#ifdef __cplusplus
extern "C"
#endif
__attribute__((noreturn)) void assertion_failed(const char *message);
#define ASSERT_LINE(line) #line
#define ASSERT_TEXT(line) ASSERT_LINE(line)
#define assert(condition) ((condition) ? (void)0 \
    : assertion_failed(__FILE__ ":" ASSERT_TEXT(__LINE__) ": Assertion `" #condition "' failed."))
#endif

#if __STDC_VERSION__ >= 201112L && __STDC_VERSION__ < 202311L
#undef static_assert
#define static_assert _Static_assert
#endif
