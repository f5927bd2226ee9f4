/* The malloc of programs by `sfi-cc --debug`: it finds what is written beside a block or after its end of life, and what is freed
   that is no block. It says so on the console, with the addresses of the calls, and traps.

   The heap is a row of blocks, each a head, the bytes that are handed out, and a zone behind them. What is handed out, what is
   freed and the zones are filled with bytes of their own. A block that is freed waits until such ones have a quarter of the heap
   or MOST_WAITING bytes, and nothing may write into it meanwhile. */
typedef unsigned size;
typedef unsigned char byte;

enum { ALIGNMENT = 16, ZONE = 16, OFTEN = 256, MOST_WAITING = 65536, NO_MEMORY = 12 };
enum { FRESH = 0xcd, GONE = 0xdd, BESIDE = 0xfb }; /* an address of four of these lies outside the data */
enum state { FREE = 0x66726565, USED = 0x75736564, WAITING = 0x77616974 };

struct block {
    size room; /* bytes up to the next block */
    size count; /* bytes that are handed out */
    enum state state;
    const void *taken, *freed; /* where the calls return to */
    struct block *next; /* of those that wait, the one that was freed after it */
    byte zone[8];
};

extern byte __sfi_end[], *__heap_end; /* where the heap begins, and the end of what it ever gave out; heap.c says more */
extern const size __heap_size;
int *__errno(void) __attribute__((weak)); /* newlib's */
long put(const void *bytes, size length);
_Noreturn void __real_exit_with(int code);
void *memset(void *to, int value, size count);
void *memcpy(void *to, const void *from, size count);
size strlen(const char *text);

static struct block *cursor; /* where the search for a free block goes on; NULL before the first */
static struct block *oldest, *youngest; /* of those that wait */
static size waiting, calls;

static struct block *first(void) {
    return (struct block *)__sfi_end;
}

static byte *end(void) {
    return __sfi_end + (__heap_size & -ALIGNMENT);
}

static struct block *after(const struct block *block) {
    return (struct block *)((byte *)block + block->room);
}

static byte *bytes_of(const struct block *block) {
    return (byte *)(block + 1);
}

/* What is wrong. */

static void say(const char *text) {
    put(text, strlen(text));
}

static void say_address(const char *before, const void *address) {
    char digits[8];
    for (int k = 0; k < 8; k++)
        digits[k] = "0123456789abcdef"[(size)address >> (28 - 4 * k) & 15];
    say(before);
    put(digits, sizeof digits);
}

static void stop(const char *what, const void *bytes, const struct block *block, const void *found) {
    say("\nmalloc: ");
    say(what);
    say_address(" at ", bytes);
    if (block)
        say_address(", taken by the call before ", block->taken);
    if (block && block->state == WAITING)
        say_address(", freed by that before ", block->freed);
    say_address("; found by that before ", found);
    say("\n");
    /* For the compiler it goes on, so that each frame keeps the caller's address. */
    __asm__ volatile("mv ra, %0\n\tebreak" : : "r"(found) : "ra");
}

static int is_filled(const byte *from, const byte *to, byte value) {
    while (from < to)
        if (*from++ != value)
            return 0;
    return 1;
}

static void look_at(const struct block *block, const void *found) {
    const byte *bytes = bytes_of(block), *last = bytes + block->count;
    if (block->state == FREE)
        return;
    if (!is_filled(block->zone, bytes, BESIDE))
        stop("something was written before the block", bytes, block, found);
    if (!is_filled(last, (byte *)after(block), BESIDE))
        stop("something was written behind the block", bytes, block, found);
    if (block->state == WAITING && !is_filled(bytes, last, GONE))
        stop("something was written after it was freed into the block", bytes, block, found);
}

/* A head that isn't one was written over by way of the block before it, whose zone says so. */
static void look_at_all(const void *found) {
    for (struct block *block = first(); cursor && (byte *)block < end(); block = after(block))
        look_at(block, found);
}

static void look_at_times(const void *found) {
    if (++calls % OFTEN == 0)
        look_at_all(found);
}

/* Blocks that are taken and given back. */

static void begin(void) {
    cursor = first();
    *cursor = (struct block){.room = end() - __sfi_end, .state = FREE};
}

/* Where a block of some room, whose bytes are aligned, may lie in a free one: at its beginning, or with room for a block before
   it. NULL where there is none, or a deep stack lies there. */
static struct block *place_in(struct block *block, size room, size alignment) {
    size stack, at = (((size)bytes_of(block) + alignment - 1) & -alignment) - sizeof *block;
    __asm__("mv %0, sp" : "=r"(stack));
    while (at != (size)block && at - (size)block < sizeof *block)
        at += alignment;
    int has_room = at + room <= (size)after(block) && at + room > at && at + room + sizeof *block <= stack;
    return has_room ? (struct block *)at : 0;
}

static void join_free(struct block *block) {
    while ((byte *)after(block) < end() && after(block)->state == FREE)
        block->room += after(block)->room;
}

/* The first free block from one on that has room. */
static struct block *found_from(struct block *block, size room, size alignment) {
    for (; (byte *)block < end(); block = after(block)) {
        if (block->state != FREE)
            continue;
        join_free(block);
        if (place_in(block, room, alignment))
            return block;
    }
    return 0;
}

/* What was ever given out ends behind a block, and behind the head of the next one. */
static void move_end(struct block *block) {
    byte *last = (byte *)after(block);
    if (last < end())
        last += sizeof *block;
    if (last > __heap_end)
        __heap_end = last;
}

/* Parts a free block in two. */
static struct block *part(struct block *block, size room) {
    struct block *rest = (struct block *)((byte *)block + room);
    *rest = (struct block){.room = block->room - room, .state = FREE};
    block->room = room;
    return rest;
}

static void set_free(const void *found) {
    struct block *block = oldest;
    look_at(block, found);
    oldest = block->next;
    waiting -= block->room;
    block->state = FREE;
    cursor = first(); /* no block that is joined to another */
}

static struct block *free_block(size room, size alignment, const void *by) {
    for (;; set_free(by)) {
        struct block *block = found_from(cursor, room, alignment);
        if (!block)
            block = found_from(first(), room, alignment);
        if (block || !oldest)
            return block;
    }
}

static void *no_memory(void) {
    if (__errno)
        *__errno() = NO_MEMORY;
    return 0;
}

/* elf/image.py looks for it: a program that has it takes memory. */
void *__heap_take(size count, size alignment, const void *by) {
    size room = sizeof(struct block) + ((count + ZONE + ALIGNMENT - 1) & -ALIGNMENT);
    if (!cursor && __heap_size >= 2 * sizeof(struct block))
        begin();
    look_at_times(by);
    struct block *block = cursor && count < __heap_size ? free_block(room, alignment, by) : 0;
    if (!block)
        return no_memory();
    struct block *place = place_in(block, room, alignment);
    if (place != block)
        block = part(block, (byte *)place - (byte *)block);
    if (block->room - room >= sizeof *block)
        part(block, room);
    move_end(block);
    block->count = count, block->state = USED, block->taken = by;
    memset(block->zone, BESIDE, sizeof block->zone);
    memset(bytes_of(block), FRESH, count);
    memset(bytes_of(block) + count, BESIDE, (byte *)after(block) - bytes_of(block) - count);
    cursor = block;
    return bytes_of(block);
}

/* The block of some bytes that are to be freed, or stops. */
static struct block *block_of(void *bytes, const void *by) {
    struct block *block = (struct block *)bytes - 1;
    if ((size)bytes % ALIGNMENT || (byte *)block < __sfi_end || (byte *)bytes > end() || !cursor)
        stop("there is no block", bytes, 0, by);
    if (block->state == WAITING)
        stop("freed again is the block", bytes, block, by);
    if (block->state != USED)
        stop("there is no block, or something was written before it,", bytes, 0, by);
    look_at(block, by);
    return block;
}

static void give_back(void *bytes, const void *by) {
    if (!bytes)
        return;
    struct block *block = block_of(bytes, by);
    look_at_times(by);
    memset(bytes, GONE, block->count);
    block->state = WAITING, block->freed = by, block->next = 0;
    if (oldest)
        youngest->next = block;
    else
        oldest = block;
    youngest = block;
    waiting += block->room;
    while (waiting > __heap_size / 4 || waiting > MOST_WAITING)
        set_free(by);
}

static void *take_cleared(size count, size each, const void *by) {
    if (each && count > (size)-1 / each)
        return no_memory();
    void *bytes = __heap_take(count * each, ALIGNMENT, by);
    return bytes ? memset(bytes, 0, count * each) : 0;
}

static void *take_other(void *bytes, size count, const void *by) {
    if (!bytes)
        return __heap_take(count, ALIGNMENT, by);
    size before = block_of(bytes, by)->count;
    void *other = count ? __heap_take(count, ALIGNMENT, by) : 0;
    if (other)
        memcpy(other, bytes, before < count ? before : count);
    if (other || !count)
        give_back(bytes, by);
    return other;
}

static void *take_aligned(size alignment, size count, const void *by) {
    return __heap_take(count, alignment < ALIGNMENT ? ALIGNMENT : alignment, by);
}

/* The functions, and those that newlib's own call, with a first argument that says which thread it is. A program's own go first. */

#define CALLER __builtin_return_address(0)
#define WEAK __attribute__((weak))
#define THREAD __attribute__((unused)) void *thread

WEAK void *malloc(size count) { return __heap_take(count, ALIGNMENT, CALLER); }
WEAK void *calloc(size count, size each) { return take_cleared(count, each, CALLER); }
WEAK void *realloc(void *bytes, size count) { return take_other(bytes, count, CALLER); }
WEAK void free(void *bytes) { give_back(bytes, CALLER); }
WEAK void *memalign(size alignment, size count) { return take_aligned(alignment, count, CALLER); }
WEAK void *aligned_alloc(size alignment, size count) { return take_aligned(alignment, count, CALLER); }
WEAK size malloc_usable_size(void *bytes) { return bytes ? block_of(bytes, CALLER)->count : 0; }

WEAK void *_malloc_r(THREAD, size count) { return __heap_take(count, ALIGNMENT, CALLER); }
WEAK void *_calloc_r(THREAD, size count, size each) { return take_cleared(count, each, CALLER); }
WEAK void *_realloc_r(THREAD, void *bytes, size count) { return take_other(bytes, count, CALLER); }
WEAK void _free_r(THREAD, void *bytes) { give_back(bytes, CALLER); }
WEAK void *_memalign_r(THREAD, size alignment, size count) { return take_aligned(alignment, count, CALLER); }
WEAK size _malloc_usable_size_r(THREAD, void *bytes) { return bytes ? block_of(bytes, CALLER)->count : 0; }

/* In the place of the gate, at the program's end. */
_Noreturn void __wrap_exit_with(int code) {
    look_at_all(CALLER);
    __real_exit_with(code);
}
