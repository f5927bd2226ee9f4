/* ctype.h, for ASCII: no other character has a class. */
#include "library.h"
#include <ctype.h>

static int between(int character, int first, int last) {
    return (unsigned)character - first <= (unsigned)(last - first);
}

OWN_GOES_FIRST int isdigit(int character) {
    return between(character, '0', '9');
}

OWN_GOES_FIRST int islower(int character) {
    return between(character, 'a', 'z');
}

OWN_GOES_FIRST int isupper(int character) {
    return between(character, 'A', 'Z');
}

OWN_GOES_FIRST int isalpha(int character) {
    return between(character | 32, 'a', 'z');
}

OWN_GOES_FIRST int isalnum(int character) {
    return isalpha(character) || isdigit(character);
}

OWN_GOES_FIRST int isxdigit(int character) {
    return isdigit(character) || between(character | 32, 'a', 'f');
}

OWN_GOES_FIRST int isblank(int character) {
    return character == ' ' || character == '\t';
}

OWN_GOES_FIRST int isspace(int character) {
    return character == ' ' || between(character, '\t', '\r');
}

OWN_GOES_FIRST int isprint(int character) {
    return between(character, ' ', '~');
}

OWN_GOES_FIRST int isgraph(int character) {
    return between(character, '!', '~');
}

OWN_GOES_FIRST int ispunct(int character) {
    return isgraph(character) && !isalnum(character);
}

OWN_GOES_FIRST int iscntrl(int character) {
    return between(character, 0, 31) || character == 127;
}

OWN_GOES_FIRST int tolower(int character) {
    return isupper(character) ? character + ('a' - 'A') : character;
}

OWN_GOES_FIRST int toupper(int character) {
    return islower(character) ? character - ('a' - 'A') : character;
}
