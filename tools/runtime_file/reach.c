
/* ---- What the module takes of its host: a heap, and accesses by the host's own addresses */

#include <stdlib.h>
#include <string.h>

#if !defined(__BYTE_ORDER__) || __BYTE_ORDER__ != __ORDER_LITTLE_ENDIAN__
#error "the machine has to be little-endian"
#endif
#if UINTPTR_MAX != SIZE_MAX || (UINTPTR_MAX != UINT32_MAX && UINTPTR_MAX != UINT64_MAX)
#error "addresses and sizes have to have 32 or 64 bits"
#endif

#ifdef SUYGAPID_RUN_OWN_HEAP
/* Like malloc, realloc and free of the C standard; the first two may answer NULL. */
void *suygapid_run_malloc(size_t size);
void *suygapid_run_realloc(void *block, size_t size);
void suygapid_run_free(void *block);
#else
#define suygapid_run_malloc malloc
#define suygapid_run_realloc realloc
#define suygapid_run_free free
#endif

/* Files of a program that are made in this way have names of their own for what they trap by. */
#define wasm_rt_trap suygapid_run_trap
#define wasm_rt_register_func_type suygapid_run_register_func_type

#define OF_MODULE __attribute__((always_inline, unused)) static inline

/* An address of the host's is a number of 64 bits to the module. */
OF_MODULE uint64_t at_of(const volatile void *place) {
    return (uintptr_t)place;
}

OF_MODULE void *place(uint64_t at) {
    return (void *)(uintptr_t)at;
}

struct Z_env_instance_t;
#define MODULE struct Z_env_instance_t *module

OF_MODULE uint64_t Z_envZ_constants(MODULE) {
    (void)module;
    return at_of(constants);
}

#define LOAD(name, type, widened, result)                                     \
    OF_MODULE result Z_envZ_##name(MODULE, uint64_t at, uint64_t offset) {    \
        type value;                                                           \
        (void)module;                                                         \
        memcpy(&value, place(at + offset), sizeof value);                     \
        return (result)(widened)value;                                        \
    }
#define STORE(name, type, given)                                              \
    OF_MODULE void Z_envZ_##name(MODULE, uint64_t at, given whole, uint64_t offset) { \
        type value = (type)whole;                                             \
        (void)module;                                                         \
        memcpy(place(at + offset), &value, sizeof value);                     \
    }

LOAD(i32_load, uint32_t, uint32_t, uint32_t)
LOAD(i32_load8_s, int8_t, int32_t, uint32_t)
LOAD(i32_load8_u, uint8_t, uint32_t, uint32_t)
LOAD(i32_load16_s, int16_t, int32_t, uint32_t)
LOAD(i32_load16_u, uint16_t, uint32_t, uint32_t)
LOAD(i64_load, uint64_t, uint64_t, uint64_t)
LOAD(i64_load8_s, int8_t, int64_t, uint64_t)
LOAD(i64_load8_u, uint8_t, uint64_t, uint64_t)
LOAD(i64_load16_s, int16_t, int64_t, uint64_t)
LOAD(i64_load16_u, uint16_t, uint64_t, uint64_t)
LOAD(i64_load32_s, int32_t, int64_t, uint64_t)
LOAD(i64_load32_u, uint32_t, uint64_t, uint64_t)
STORE(i32_store, uint32_t, uint32_t)
STORE(i32_store8, uint8_t, uint32_t)
STORE(i32_store16, uint16_t, uint32_t)
STORE(i64_store, uint64_t, uint64_t)
STORE(i64_store8, uint8_t, uint64_t)
STORE(i64_store16, uint16_t, uint64_t)
STORE(i64_store32, uint32_t, uint64_t)

OF_MODULE void Z_envZ_memory_copy(MODULE, uint64_t to, uint64_t from, uint64_t size) {
    (void)module;
    if (size)
        memmove(place(to), place(from), (size_t)size);
}

OF_MODULE void Z_envZ_memory_fill(MODULE, uint64_t to, uint32_t byte, uint64_t size) {
    (void)module;
    if (size)
        memset(place(to), (int)byte, (size_t)size);
}

/* Counts of owners. One has 64 bits; where addresses have 32, so few owners fit into memory that its low half counts. */
typedef uintptr_t __attribute__((may_alias)) owners;

#ifdef SUYGAPID_RUN_NO_THREADS
OF_MODULE uint64_t owners_now(owners *count) {
    return *count;
}

OF_MODULE uint64_t fewer_owners(owners *count, owners fewer) {
    owners before = *count;
    *count = before - fewer;
    return before;
}

OF_MODULE uint64_t other_owners(owners *count, owners expected, owners others) {
    owners before = *count;
    if (before == expected)
        *count = others;
    return before;
}
#else
OF_MODULE uint64_t owners_now(owners *count) {
    return __atomic_load_n(count, __ATOMIC_SEQ_CST);
}

OF_MODULE uint64_t fewer_owners(owners *count, owners fewer) {
    return __atomic_fetch_sub(count, fewer, __ATOMIC_SEQ_CST);
}

OF_MODULE uint64_t other_owners(owners *count, owners expected, owners others) {
    __atomic_compare_exchange_n(count, &expected, others, false, __ATOMIC_SEQ_CST, __ATOMIC_SEQ_CST);
    return expected;
}
#endif

OF_MODULE uint64_t Z_envZ_i64_atomic_load(MODULE, uint64_t at, uint64_t offset) {
    (void)module;
    return owners_now(place(at + offset));
}

OF_MODULE uint64_t Z_envZ_i64_atomic_rmw_sub(MODULE, uint64_t at, uint64_t fewer, uint64_t offset) {
    (void)module;
    return fewer_owners(place(at + offset), (owners)fewer);
}

OF_MODULE uint64_t Z_envZ_i64_atomic_rmw_cmpxchg(MODULE, uint64_t at, uint64_t expected, uint64_t others, uint64_t offset) {
    (void)module;
    return other_owners(place(at + offset), (owners)expected, (owners)others);
}

OF_MODULE uint64_t Z_envZ_malloc(MODULE, uint64_t size) {
    (void)module;
    return size > PTRDIFF_MAX ? 0 : (uintptr_t)suygapid_run_malloc((size_t)size);
}

OF_MODULE uint64_t Z_envZ_realloc(MODULE, uint64_t block, uint64_t size) {
    (void)module;
    return size > PTRDIFF_MAX ? 0 : (uintptr_t)suygapid_run_realloc(place(block), (size_t)size);
}

OF_MODULE void Z_envZ_free(MODULE, uint64_t block) {
    (void)module;
    suygapid_run_free(place(block));
}
