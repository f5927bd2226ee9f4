/*
 * Of a program that can be moved: adds to each address in the data how far its region has been moved. __sfi_places has
 * where these are, from the last to the first, each in a byte: how many words it lies below the one before it, and CODE
 * where it is an address of code. A distance of 0 is 127 words, with no address there. Where it runs again nothing has
 * been moved, since both addresses here are among them.
 */
typedef unsigned long word;
typedef void function(void);

enum { CODE = 128, FARTHEST = 127 };

extern const unsigned char __sfi_places[], __sfi_places_end[];
void __sfi_settle(void);

static const void *volatile of_data = (const void *)&of_data;
static function *volatile of_code = __sfi_settle;

void __sfi_settle(void) {
    word data = (word)&of_data - (word)of_data, code = (word)__sfi_settle - (word)of_code;
    word *at = (word *)__sfi_places;
    const unsigned char *place;
    if ((data | code) == 0)
        return;
    for (place = __sfi_places; place != __sfi_places_end; place++) {
        word distance = *place & FARTHEST;
        if (distance == 0)
            at -= FARTHEST;
        else
            *(at -= distance) += *place & CODE ? code : data;
    }
}
