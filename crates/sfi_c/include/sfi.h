/*
 * The checker of Suygapid for C and C++: whether the bytes of an image are accepted, and if not, why.
 *
 * Accepted means: from any entry of any of the image's sandboxes, with the four reserved registers set and every
 * other register and data byte arbitrary, after any number of turns every load and store fell in that sandbox's data
 * region or its guard zones, where it trapped, no code byte changed, and control left only through a listed gate.
 * An entry is any bundle start of the code, in the third and fourth format any multiple of 4. x24 holds the code base, x25
 * the code size less 16 (in the third and fourth format less 4), x26 the data base, x27 the data size less 1.
 * In the second format x2, the stack pointer, isn't arbitrary: at an entry and after a reply it lies in the data
 * region. In the third, SFIW, six registers aren't: x2, x3, x4 and x29 lie in the data region or at most 1020 bytes
 * beside it, x30 is a multiple of 4 in the code region, and x31 is less than the data's size. In the fourth, SFIS, x27
 * holds the data base plus the data size less 1, x30 is as in the third, and x2, x3, x4, x26, x29 and x31 each lie in the
 * data region, or below the data's size, or at most 1020 bytes beside either, modulo 2^32 (0 is right). There the
 * addresses below the data's size plus 4096, and the last 4096, are a guard zone, too: the zone at zero. This is proved of the
 * calls below. The library loads and runs nothing: the caller sees to it that memory, host and neighbours are as the
 * theorem asks (README.md has it with its premises). One of these is that a trap ends the sandbox's run: it goes on by a
 * new entry alone. A host that steps over an ebreak lets it out in each format. And an access with a byte in a guard zone
 * traps: in the third and fourth format a host that completes such an access, or steps over it, lets the sandbox out (no rule rests on
 * the trap of a load into x0); in the first two that is harmless as long as nothing is in the guard zones.
 *
 * The calls read nothing but their arguments, keep nothing elsewhere from one to the next, start no thread, read no file
 * and write none. Any number of threads may call them at once. They return whatever the bytes of the image are; the time
 * grows in proportion to the bytes. A thread with 64 KiB of stack had room for them where that was measured.
 *
 * What a caller owes, since nothing checks it:
 *
 * - Each pointer is not NULL and is aligned, also where its length is 0.
 * - `length` bytes at `image` can be read, `capacity` elements of `array` and the one of `verdict` can be written, and
 *   each of these has fewer than PTRDIFF_MAX bytes.
 * - Nothing writes the image during the call: no thread, and no other process that shares its memory.
 * - Nothing else reads or writes `verdict` and `array` during the call, no other call either. They overlap neither each
 *   other nor the image.
 *
 * Link libsfi_c.a, which `rt lib` builds in crates/sfi_c/out: examples/embed/test.sh has the command lines. No call takes
 * memory, and of C the library asks for memcpy, memmove and memset alone.
 */
#ifndef SFI_H
#define SFI_H

#include <stdbool.h>
#include <stddef.h>
#include <stdint.h>

/*
 * The version of this header, and of the library that it declares: major, minor, patch. As a number it is major * 65536 +
 * minor * 256 + patch: where sfi_c_version, declared below, returns another than SFI_VERSION_NUMBER, the program was linked
 * with the library of another version than its header.
 */
#define SFI_VERSION "0.1.0"
#define SFI_VERSION_NUMBER 0x000100

#ifdef __cplusplus
extern "C" {
#endif

/* What a verdict says of the bytes. Test the status that the call returned: a verdict of zeros that no call wrote
 * looks accepted, though with 0 sandboxes. */
enum sfi_status {
    SFI_ACCEPTED = 0, /* they are an image in which no rule is broken */
    SFI_REFUSED = 1,  /* they are an image in which rules are broken */
    SFI_NO_IMAGE = 2  /* they are no image: the layout has a fault */
};

/* What is wrong with bytes that are no image: the first test that fails, in the order of reading (docs/IMAGE.md). */
enum sfi_layout_fault {
    SFI_FAULT_MAGIC = 1,
    SFI_FAULT_COUNT = 2,
    SFI_FAULT_SHORT = 3,
    SFI_FAULT_CODE = 4,
    SFI_FAULT_DATA = 5,
    SFI_FAULT_GUARD_ROOM = 6,
    SFI_FAULT_START = 7,
    SFI_FAULT_GATES = 8,
    SFI_FAULT_INIT = 9,
    SFI_FAULT_OVERLAP = 10,
    SFI_FAULT_TRAILING = 11
};

/* A rule that is broken, and where. */
struct sfi_finding {
    uint32_t sandbox; /* the sandbox's place in the image, counted from 0 */
    uint32_t address; /* that of the instruction's first byte, or of the bytes that are none; for V9 the gate's */
    uint32_t rule;    /* 1 for V1, and so on (docs/IMAGE.md) */
};

/* The verdict on an image. What its status doesn't speak of is 0. */
struct sfi_verdict {
    uint32_t status;          /* one of enum sfi_status */
    uint32_t layout_fault;    /* SFI_NO_IMAGE: one of enum sfi_layout_fault */
    uint32_t sandboxes;       /* SFI_ACCEPTED: how many sandboxes the image has, 1 to 16 .. */
    uint32_t bundles;         /* .. and how many 16 bytes of code they have together, in each format */
    uint32_t findings;        /* SFI_REFUSED: how many findings there are, at least 1 .. */
    struct sfi_finding first; /* .. and the first of them, by sandbox and then by address */
};

/* Whoever calls by another language writes these structs anew: they have no padding. */
#if defined(__cplusplus) && __cplusplus >= 201103L
static_assert(sizeof(struct sfi_finding) == 12 && sizeof(struct sfi_verdict) == 32, "the structs have no padding");
#elif defined(__STDC_VERSION__) && __STDC_VERSION__ >= 201112L
_Static_assert(sizeof(struct sfi_finding) == 12 && sizeof(struct sfi_verdict) == 32, "the structs have no padding");
#else
typedef char sfi_structs_have_no_padding[sizeof(struct sfi_finding) == 12 && sizeof(struct sfi_verdict) == 32 ? 1 : -1];
#endif

/* The version of the library, as a number. */
uint32_t sfi_c_version(void);

/*
 * Writes the verdict on the `length` bytes at `image` to *verdict, and returns its status. It looks at eight bundles at
 * a time, by vectors: where the processor has none, sfi_c_begin, sfi_c_feed and sfi_c_end below say the same by less
 * code and in less time.
 */
uint32_t sfi_c_check(const uint8_t *image, size_t length, struct sfi_verdict *verdict);

/*
 * The same, and where the status is SFI_REFUSED writes the findings to `array`, from its front on and by sandbox and
 * then by address: all of them, or the first `capacity` where there are more. verdict->findings tells how many there
 * are in all. No other element of the array is written, and with another status none is.
 *
 * An image with findings is read twice.
 */
uint32_t sfi_c_findings(const uint8_t *image, size_t length, struct sfi_finding *array, size_t capacity,
                        struct sfi_verdict *verdict);

/* ---- an image that comes in pieces */

/*
 * What is known of the bytes of an image so far, in the caller's memory. Its words are the library's own: they hold no
 * pointer, so that the struct may be copied and moved between two calls, and no byte of it has to be set before
 * sfi_c_begin.
 */
struct sfi_stream {
    uint64_t words[119];
};

/* The library's own struct is as long. */
#if defined(__cplusplus) && __cplusplus >= 201103L
static_assert(sizeof(struct sfi_stream) == 952, "the library writes 952 bytes");
#elif defined(__STDC_VERSION__) && __STDC_VERSION__ >= 201112L
_Static_assert(sizeof(struct sfi_stream) == 952, "the library writes 952 bytes");
#else
typedef char sfi_stream_has_952_bytes[sizeof(struct sfi_stream) == 952 ? 1 : -1];
#endif

/*
 * Begins an image, of which no byte has come. sfi_c_feed then takes the `length` bytes at `bytes` that come next: as
 * many as there are, 0 too, and cut anywhere. sfi_c_end writes the verdict on all bytes so far to *verdict, exactly as
 * sfi_c_check does on the same bytes in one piece, and returns its status. It may be called at any time, and more bytes
 * may be fed after it: before the image's last byte its answer is that the bytes are cut short (SFI_FAULT_SHORT), or a
 * fault that was met before.
 *
 * What a caller owes beside the above:
 *
 * - `stream` is one that sfi_c_begin wrote, and no one but sfi_c_begin and sfi_c_feed wrote since; or a copy of such a
 *   one. The calls trust what stands in it: keep it where no sandbox and no other process can write.
 * - One call at a time uses a stream. It overlaps neither the bytes nor the verdict.
 * - What is loaded later are the bytes that were fed: keep those of each piece, or load them at once and run nothing
 *   before the verdict.
 */
void sfi_c_begin(struct sfi_stream *stream);
void sfi_c_feed(struct sfi_stream *stream, const uint8_t *bytes, size_t length);
uint32_t sfi_c_end(const struct sfi_stream *stream, struct sfi_verdict *verdict);

/*
 * Whether the bytes so far are refused already: the layout has a fault other than that they are cut short, or a rule is
 * broken in the bundles that have come whole. Then no image that begins with them is accepted, so nothing more has to be
 * fed. It may be called at any time. Where it answers true for a fault, sfi_c_end tells which; for a broken rule
 * sfi_c_end answers SFI_REFUSED after the image's last byte alone.
 */
bool sfi_c_refused(const struct sfi_stream *stream);

/* ---- what is in an image: ask it of bytes that were accepted */

/*
 * The calls that take an image's bytes look at the layout alone and break off at its first fault: they don't look for
 * broken rules, so that each costs a small part of a check. Of bytes that are an image they answer the same whether a rule
 * is broken in it or not.
 *
 * Compare the regions with what is yours before you map anything. An image names its addresses itself: that they lie
 * apart from each other, and have room for the guard zones, is checked; that they lie apart from your own memory is yours.
 */

/* What is said of a sandbox or a gate that was asked for; or SFI_NO_IMAGE, where the bytes are no image. Unless it is
 * SFI_FOUND, nothing is written. */
enum sfi_lookup {
    SFI_FOUND = 0,   /* the image has it */
    SFI_BEYOND = 1,  /* the image has fewer sandboxes, or the sandbox fewer gates */
    SFI_NO_PLACE = 3 /* sfi_c_move alone: the sandbox can't lie there */
};

/* A sandbox of an image. */
struct sfi_part {
    uint32_t format;    /* that of the image: 1 for SFI1, 2 for SFI2, 3 for SFIW, 4 for SFIS */
    uint32_t code_base; /* the code region: its first address .. */
    uint32_t code_size; /* .. and how many bytes it has, all of which are in the image */
    uint32_t data_base; /* the data region: its first address .. */
    uint32_t data_size; /* .. and how many bytes it has; on each side is a guard zone of 4096, where each access has to trap,
                           and so has in the fourth format each below data_size + 4096, and in the last 4096 addresses */
    uint32_t start;     /* the address at which the sandbox starts to run */
    uint32_t gates;     /* how many gates it has, 0 to 64 */
    uint32_t init_size; /* how many first bytes of the data region are in the image: zeros follow them */
    size_t code_offset; /* where the code begins in the image's bytes, counted from 0: after this sandbox's fields and gates */
    size_t init_offset; /* where the first data bytes begin there: directly after the code, also where there are none */
};

/* A gate of a sandbox. */
struct sfi_gate {
    uint32_t address; /* the listed address: in the first two formats its stub, with its ecall in front, stands there. In
                         the others only an ecall at a listed address may call, but what stands there isn't tested */
    uint32_t service; /* what the host is asked for: the number of a service (docs/GATES.md) */
};

/* These have no padding either: the offsets have the size of an address, so that the first struct has 48 bytes where that
 * is 64 bits, and 40 where it is 32. */
#if defined(__cplusplus) && __cplusplus >= 201103L
static_assert(sizeof(struct sfi_part) == 32 + 2 * sizeof(size_t) && sizeof(struct sfi_gate) == 8, "no padding");
#elif defined(__STDC_VERSION__) && __STDC_VERSION__ >= 201112L
_Static_assert(sizeof(struct sfi_part) == 32 + 2 * sizeof(size_t) && sizeof(struct sfi_gate) == 8, "no padding");
#else
typedef char sfi_part_has_no_padding[sizeof(struct sfi_part) == 32 + 2 * sizeof(size_t) && sizeof(struct sfi_gate) == 8
                                         ? 1
                                         : -1];
#endif

/*
 * Writes to *part the sandbox of that number, counted from 0, of the image that the `length` bytes at `image` are. Returns
 * SFI_FOUND, SFI_BEYOND or SFI_NO_IMAGE. The caller owes what it owes the calls above, of *part too.
 */
uint32_t sfi_c_part(const uint8_t *image, size_t length, uint32_t number, struct sfi_part *part);

/*
 * Writes to *gate the gate of that index, counted from 0 and in the order of the addresses, of the sandbox of that number.
 */
uint32_t sfi_c_gate(const uint8_t *image, size_t length, uint32_t number, uint32_t index, struct sfi_gate *gate);

/*
 * Writes to `array`, from its front on and in the same order, the gates of the sandbox of that number: all of them, which
 * are part.gates, or the first `capacity` where there are more. No other element of the array is written. Returns
 * SFI_FOUND where the image has the sandbox, even one with no gate. The layout is looked at once, not for each gate.
 */
uint32_t sfi_c_gates(const uint8_t *image, size_t length, uint32_t number, struct sfi_gate *array, size_t capacity);

/*
 * Of parts that sfi_c_part wrote, which may be one and the same: whether no region and no guard zone of one sandbox meets
 * one of the other: neither code with code, nor the code of one with the data or a guard zone of the other, nor data or guard
 * zones with each other, nor any with the zone at zero of the other, if its format has one. It looks at the formats, bases and
 * sizes alone. So sandboxes of two images, each accepted by itself and in any format, may run in one memory where this is true
 * of each sandbox of the one with each of the other. Of one image's sandboxes the verdict says so.
 */
bool sfi_c_apart(const struct sfi_part *one, const struct sfi_part *other);

/* ---- a sandbox at another place */

/*
 * Moves the sandbox of that number: its code to code_base and its data to data_base. Of the image's bytes only the two bases,
 * the start and the gates' addresses change, by as much as the code's base, and in its table of names, if its first data bytes
 * end in one (sfi_run_export), each address of the code or the data; with an answer other than SFI_FOUND none does.
 *
 * SFI_NO_PLACE: a base is no multiple of its region's size (in the fourth format the data base no single bit, or below the data's
 * size), there is no room for a guard zone beside the data, or a region or a guard zone meets another one of the image (or lies
 * in a zone at zero). SFI_BEYOND and SFI_NO_IMAGE are as above.
 *
 * The image that was written is accepted exactly if the one before was, so either may be checked. What it computes is another
 * thing: code that has addresses in its instructions or its data, as `la` writes them without `.movable`, names the old place.
 *
 * Nothing else reads or writes the image during the call.
 */
uint32_t sfi_c_move(uint8_t *image, size_t length, uint32_t number, uint32_t code_base, uint32_t data_base);

#ifdef __cplusplus
}
#endif

#endif
