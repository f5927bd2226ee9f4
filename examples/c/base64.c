/* Prints its input in base64, in lines of 76 characters, and ends in 1 if these don't decode to the input again. */
#include "gates.h"

enum { MOST = 12288, LINE = 76, WRONG = 255 };

static const char letters[] = "ABCDEFGHIJKLMNOPQRSTUVWXYZabcdefghijklmnopqrstuvwxyz0123456789+/";

static unsigned char input[MOST], decoded[MOST];
static char text[MOST / 3 * 4 + MOST / 57 + 8];
static unsigned char values[256];

static unsigned read_all(unsigned char *bytes, unsigned most) {
    unsigned length = 0;
    long count;
    while (length < most && (count = get(bytes + length, most - length)) > 0)
        length += count;
    return length;
}

static void fill_values(void) {
    for (int i = 0; i < 256; i++)
        values[i] = WRONG;
    for (int i = 0; i < 64; i++)
        values[(unsigned char)letters[i]] = i;
}

/* Writes the four letters of one to three bytes. */
static char *encode_group(const unsigned char *from, unsigned count, char *to) {
    unsigned long bits = (unsigned long)from[0] << 16;
    if (count > 1)
        bits |= (unsigned long)from[1] << 8;
    if (count > 2)
        bits |= from[2];
    to[0] = letters[bits >> 18 & 63];
    to[1] = letters[bits >> 12 & 63];
    to[2] = count > 1 ? letters[bits >> 6 & 63] : '=';
    to[3] = count > 2 ? letters[bits & 63] : '=';
    return to + 4;
}

static unsigned encode(const unsigned char *from, unsigned length, char *to) {
    char *at = to, *line = to;
    for (unsigned i = 0; i < length; i += 3) {
        at = encode_group(from + i, length - i, at);
        if (at - line == LINE) {
            *at++ = '\n';
            line = at;
        }
    }
    if (at != line)
        *at++ = '\n';
    return at - to;
}

/* The number of bytes, or -1 where a character is no letter of base64. */
static int decode(const char *from, unsigned length, unsigned char *to) {
    unsigned long bits = 0;
    int held = 0, count = 0;
    for (unsigned i = 0; i < length; i++) {
        unsigned char letter = from[i];
        if (letter == '\n' || letter == '=')
            continue;
        if (values[letter] == WRONG)
            return -1;
        bits = bits << 6 | values[letter];
        held += 6;
        if (held >= 8) {
            held -= 8;
            to[count++] = bits >> held;
        }
    }
    return count;
}

int main(void) {
    unsigned length = read_all(input, MOST);
    fill_values();
    unsigned size = encode(input, length, text);
    put(text, size);
    if (decode(text, size, decoded) != (int)length)
        return 1;
    for (unsigned i = 0; i < length; i++)
        if (decoded[i] != input[i])
            return 1;
    return 0;
}
