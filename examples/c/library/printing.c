/* printf and its kin of stdio.h: flags, width, precision and length, and the conversions d i u o x X c s p %. The others of
   the C standard, such as those of floating point, end the program with a line that says so; what is no conversion is
   printed as it stands. */
#include "library.h"
#include "../gates.h"
#include <limits.h>
#include <stdint.h>
#include <stdio.h>
#include <stdlib.h>
#include <string.h>

/* Where the characters go: into a buffer, which is written to the output each time that it is full, or else takes no
   more. */
struct sink {
    char *bytes;
    size_t room, used;
    int is_output, failed;
    int total; /* the characters so far, kept or not */
};

/* A conversion, such as `%-08.3lx`. */
struct form {
    int left, zeros, plus, space, alternative;
    int width, precision; /* precision -1: none */
    int length; /* bytes of the number */
    char letter;
};

static void flush(struct sink *sink) {
    if (put(sink->bytes, sink->used) < 0)
        sink->failed = 1;
    sink->used = 0;
}

static void emit(struct sink *sink, char character) {
    if (sink->used == sink->room && sink->is_output)
        flush(sink);
    if (sink->used < sink->room)
        sink->bytes[sink->used++] = character;
    sink->total++;
}

static void emit_times(struct sink *sink, char character, int count) {
    while (count-- > 0)
        emit(sink, character);
}

static void emit_text(struct sink *sink, const char *text, int count) {
    while (count-- > 0)
        emit(sink, *text++);
}

/* The digits of a number, before `end`; 0 has none. Answers the first. */
static char *write_word(char *end, unsigned number, unsigned base, const char *digits) {
    for (; number; number /= base)
        *--end = digits[number % base];
    return end;
}

static char *write_digits(char *end, unsigned long long number, unsigned base, const char *digits) {
    for (; number > UINT_MAX; number /= base)
        *--end = digits[number % base];
    return write_word(end, number, base, digits);
}

static int largest(int left, int right) {
    return left > right ? left : right;
}

/* A number's text: spaces, prefix, zeros, digits and spaces. */
static void emit_number(struct sink *sink, const struct form *form, unsigned long long magnitude, const char *prefix) {
    unsigned base = form->letter == 'x' || form->letter == 'X' ? 16 : form->letter == 'o' ? 8 : 10;
    char digits[24], *end = digits + sizeof digits;
    char *first = write_digits(end, magnitude, base, form->letter == 'X' ? "0123456789ABCDEF" : "0123456789abcdef");
    int length = end - first, signs = strlen(prefix);
    int zeros = form->precision < 0 ? length == 0 : largest(form->precision - length, 0);
    if (form->letter == 'o' && form->alternative && zeros == 0)
        zeros = 1;
    if (form->zeros && !form->left && form->precision < 0)
        zeros = largest(zeros, form->width - signs - length);
    int spaces = form->width - signs - zeros - length;
    emit_times(sink, ' ', form->left ? 0 : spaces);
    emit_text(sink, prefix, signs);
    emit_times(sink, '0', zeros);
    emit_text(sink, first, length);
    emit_times(sink, ' ', form->left ? spaces : 0);
}

static void emit_signed(struct sink *sink, const struct form *form, long long number) {
    unsigned long long magnitude = number < 0 ? 0 - (unsigned long long)number : (unsigned long long)number;
    emit_number(sink, form, magnitude, number < 0 ? "-" : form->plus ? "+" : form->space ? " " : "");
}

static void emit_unsigned(struct sink *sink, const struct form *form, unsigned long long number) {
    int prefixed = form->alternative && number != 0;
    const char *prefix = form->letter == 'x' ? "0x" : form->letter == 'X' ? "0X" : "";
    emit_number(sink, form, number, prefixed ? prefix : "");
}

static void emit_padded(struct sink *sink, const struct form *form, const char *text, int length) {
    emit_times(sink, ' ', form->left ? 0 : form->width - length);
    emit_text(sink, text, length);
    emit_times(sink, ' ', form->left ? form->width - length : 0);
}

/* The string's length, or the precision where that is less: then it needn't end. */
static int string_length(const char *text, int precision) {
    if (precision < 0)
        return strlen(text);
    int length = 0;
    while (length < precision && text[length])
        length++;
    return length;
}

static const char *read_flags(const char *at, struct form *form) {
    for (;; at++)
        switch (*at) {
        case '-': form->left = 1; break;
        case '0': form->zeros = 1; break;
        case '+': form->plus = 1; break;
        case ' ': form->space = 1; break;
        case '#': form->alternative = 1; break;
        default: return at;
        }
}

static const char *read_number(const char *at, int *number, va_list *arguments) {
    if (*at == '*') {
        *number = va_arg(*arguments, int);
        return at + 1;
    }
    for (*number = 0; *at >= '0' && *at <= '9'; at++)
        *number = *number * 10 + *at - '0';
    return at;
}

static const char *read_length(const char *at, struct form *form) {
    form->length = sizeof(int);
    switch (*at) {
    case 'h':
        form->length = at[1] == 'h' ? sizeof(char) : sizeof(short);
        return at[1] == 'h' ? at + 2 : at + 1;
    case 'l':
        form->length = at[1] == 'l' ? sizeof(long long) : sizeof(long);
        return at[1] == 'l' ? at + 2 : at + 1;
    case 'j': form->length = sizeof(intmax_t); return at + 1;
    case 'z': form->length = sizeof(size_t); return at + 1;
    case 't': form->length = sizeof(ptrdiff_t); return at + 1;
    default: return at;
    }
}

static const char *read_form(const char *at, struct form *form, va_list *arguments) {
    *form = (struct form){0};
    form->precision = -1;
    at = read_number(read_flags(at, form), &form->width, arguments);
    if (form->width < 0) {
        form->left = 1;
        form->width = -form->width;
    }
    if (*at == '.')
        at = read_number(at + 1, &form->precision, arguments);
    at = read_length(at, form);
    form->letter = *at;
    return *at ? at + 1 : at;
}

static long long signed_argument(const struct form *form, va_list *arguments) {
    if (form->length == sizeof(long long))
        return va_arg(*arguments, long long);
    int number = va_arg(*arguments, int); /* a long is as large */
    if (form->length == sizeof(char))
        return (signed char)number;
    return form->length == sizeof(short) ? (short)number : number;
}

static unsigned long long unsigned_argument(const struct form *form, va_list *arguments) {
    if (form->length == sizeof(long long))
        return va_arg(*arguments, unsigned long long);
    unsigned number = va_arg(*arguments, unsigned);
    if (form->length == sizeof(char))
        return (unsigned char)number;
    return form->length == sizeof(short) ? (unsigned short)number : number;
}

static void emit_character(struct sink *sink, const struct form *form, char character) {
    emit_padded(sink, form, &character, 1);
}

static void emit_string(struct sink *sink, const struct form *form, const char *text) {
    if (text == NULL)
        text = "(null)";
    emit_padded(sink, form, text, string_length(text, form->precision));
}

static void emit_pointer(struct sink *sink, struct form *form, uintptr_t address) {
    form->letter = 'x';
    form->alternative = 1;
    emit_unsigned(sink, form, address);
}

/* A conversion that isn't there takes an argument of a size that isn't known, so the next ones couldn't be found. */
static void refuse(struct sink *sink, const char *text, const char *end) {
    if (sink->is_output)
        flush(sink);
    put("printf of this library has no ", 30);
    put(text, end - text);
    put("\n", 1);
    abort();
}

/* One conversion, of which `text` is the beginning. Answers where it ends. */
static const char *emit_conversion(struct sink *sink, const char *text, va_list *arguments) {
    struct form form;
    const char *end = read_form(text + 1, &form, arguments);
    switch (form.letter) {
    case 'd': case 'i': emit_signed(sink, &form, signed_argument(&form, arguments)); break;
    case 'u': case 'o': case 'x': case 'X': emit_unsigned(sink, &form, unsigned_argument(&form, arguments)); break;
    case 'c': emit_character(sink, &form, va_arg(*arguments, int)); break;
    case 's': emit_string(sink, &form, va_arg(*arguments, const char *)); break;
    case 'p': emit_pointer(sink, &form, (uintptr_t)va_arg(*arguments, void *)); break;
    case '%': emit(sink, '%'); break;
    case 'a': case 'A': case 'e': case 'E': case 'f': case 'F': case 'g': case 'G': case 'L': case 'n':
        refuse(sink, text, end);
        break;
    default: emit_text(sink, text, end - text);
    }
    return end;
}

static void emit_all(struct sink *sink, const char *text, va_list arguments) {
    va_list rest;
    va_copy(rest, arguments);
    while (*text)
        if (*text == '%')
            text = emit_conversion(sink, text, &rest);
        else
            emit(sink, *text++);
    va_end(rest);
}

OWN_GOES_FIRST int vprintf(const char *form, va_list arguments) {
    char bytes[128];
    struct sink sink = {bytes, sizeof bytes, 0, 1, 0, 0};
    emit_all(&sink, form, arguments);
    flush(&sink);
    return sink.failed ? -1 : sink.total;
}

OWN_GOES_FIRST int printf(const char *form, ...) {
    va_list arguments;
    va_start(arguments, form);
    int total = vprintf(form, arguments);
    va_end(arguments);
    return total;
}

/* The text's end takes the last byte of the room. */
OWN_GOES_FIRST int vsnprintf(char *to, size_t room, const char *form, va_list arguments) {
    struct sink sink = {to, room ? room - 1 : 0, 0, 0, 0, 0};
    emit_all(&sink, form, arguments);
    if (room)
        to[sink.used] = 0;
    return sink.total;
}

OWN_GOES_FIRST int snprintf(char *to, size_t room, const char *form, ...) {
    va_list arguments;
    va_start(arguments, form);
    int total = vsnprintf(to, room, form, arguments);
    va_end(arguments);
    return total;
}

OWN_GOES_FIRST int sprintf(char *to, const char *form, ...) {
    va_list arguments;
    va_start(arguments, form);
    int total = vsnprintf(to, PTRDIFF_MAX, form, arguments);
    va_end(arguments);
    return total;
}
