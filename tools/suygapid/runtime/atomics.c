/* The functions that gcc and clang call for atomic operations: a sandbox has one thread, so they are plain ones. The names
   and what they do are those of libgcc and libatomic. Each program gets those that it calls. */
typedef unsigned size;
typedef unsigned char u1;
typedef unsigned short u2;
typedef unsigned u4;
typedef unsigned long long u8;

/* A function of one of these names, which C itself has for something else; and a second name of it. The names of both
   families end in the number of bytes. */
#define FUNCTION(type, name, bytes, parameters) \
    type name##bytes parameters __asm__("__" #name #bytes); \
    type name##bytes parameters
#define ALSO(type, other, name, bytes, parameters) \
    type other##bytes parameters __asm__("__" #other #bytes) __attribute__((alias("__" #name #bytes)));

/* An operation that answers the old number, and the same one that answers the new number. */
#define OPERATION(name, changed, bytes, type) \
    FUNCTION(type, sync_fetch_and_##name##_, bytes, (type *at, type by)) { \
        type old = *at; \
        *at = changed; \
        return old; \
    } \
    ALSO(type, atomic_fetch_##name##_, sync_fetch_and_##name##_, bytes, (type *at, type by)) \
    FUNCTION(type, sync_##name##_and_fetch_, bytes, (type *at, type by)) { \
        type old = *at; \
        return *at = changed; \
    } \
    ALSO(type, atomic_##name##_fetch_, sync_##name##_and_fetch_, bytes, (type *at, type by))

#define OPERATIONS(bytes, type) \
    OPERATION(add, old + by, bytes, type) \
    OPERATION(sub, old - by, bytes, type) \
    OPERATION(or, old | by, bytes, type) \
    OPERATION(and, old & by, bytes, type) \
    OPERATION(xor, old ^ by, bytes, type) \
    OPERATION(nand, ~(old & by), bytes, type) \
    FUNCTION(type, atomic_load_, bytes, (const type *at)) { \
        return *at; \
    } \
    FUNCTION(void, atomic_store_, bytes, (type *at, type value)) { \
        *at = value; \
    } \
    FUNCTION(void, sync_lock_release_, bytes, (type *at)) { \
        *at = 0; \
    } \
    FUNCTION(type, atomic_exchange_, bytes, (type *at, type value)) { \
        type old = *at; \
        *at = value; \
        return old; \
    } \
    ALSO(type, sync_lock_test_and_set_, atomic_exchange_, bytes, (type *at, type value)) \
    FUNCTION(type, sync_val_compare_and_swap_, bytes, (type *at, type expected, type value)) { \
        type old = *at; \
        if (old == expected) \
            *at = value; \
        return old; \
    } \
    FUNCTION(_Bool, sync_bool_compare_and_swap_, bytes, (type *at, type expected, type value)) { \
        return sync_val_compare_and_swap_##bytes(at, expected, value) == expected; \
    } \
    FUNCTION(_Bool, atomic_compare_exchange_, bytes, (type *at, type *expected, type value)) { \
        type wanted = *expected; \
        *expected = sync_val_compare_and_swap_##bytes(at, wanted, value); \
        return *expected == wanted; \
    }

OPERATIONS(1, u1)
OPERATIONS(2, u2)
OPERATIONS(4, u4)
OPERATIONS(8, u8)

/* Objects of any size. */

FUNCTION(void, atomic_load, , (size count, const u1 *at, u1 *to)) {
    while (count--)
        *to++ = *at++;
}

FUNCTION(void, atomic_store, , (size count, u1 *at, const u1 *value)) {
    atomic_load(count, value, at);
}

FUNCTION(void, atomic_exchange, , (size count, u1 *at, const u1 *value, u1 *old)) {
    atomic_load(count, at, old);
    atomic_load(count, value, at);
}

FUNCTION(_Bool, atomic_compare_exchange, , (size count, u1 *at, u1 *expected, const u1 *value)) {
    for (size byte = 0; byte < count; byte++)
        if (at[byte] != expected[byte]) {
            atomic_load(count, at, expected);
            return 0;
        }
    atomic_load(count, value, at);
    return 1;
}

FUNCTION(_Bool, atomic_is_lock_free, , (size count, const u1 *at)) {
    (void)count;
    (void)at;
    return 1;
}
