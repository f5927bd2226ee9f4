/* stb_truetype: draws letters of a font at two sizes, and prints what it measures of each and one of the pictures. */
#include <stdio.h>
#include "data.h"
#define STB_TRUETYPE_IMPLEMENTATION
#include "stb_truetype.h"

static void show(const unsigned char *picture, int width, int height) {
    for (int row = 0; row < height; row++) {
        for (int column = 0; column < width; column++)
            putchar(" .:ioVM@"[picture[row * width + column] >> 5]);
        puts("|");
    }
}

static void draw(const stbtt_fontinfo *font, int letter, float pixels) {
    int width, height, left, top, advance, bearing;
    unsigned sum = 0;
    unsigned char *picture = stbtt_GetCodepointBitmap(font, 0, stbtt_ScaleForPixelHeight(font, pixels), letter, &width, &height, &left, &top);
    stbtt_GetCodepointHMetrics(font, letter, &advance, &bearing);
    for (int at = 0; at < width * height; at++)
        sum = sum * 31 + picture[at];
    printf("%c: %dx%d at %d %d, advance %d, bearing %d, sum %08x\n", letter, width, height, left, top, advance, bearing, sum);
    if (letter == 'g')
        show(picture, width, height);
    stbtt_FreeBitmap(picture, NULL);
}

int main(void) {
    static const char letters[] = "AWgs&8";
    stbtt_fontinfo font;
    int ascent, descent, gap;
    if (!stbtt_InitFont(&font, data, stbtt_GetFontOffsetForIndex(data, 0)))
        return 1;
    stbtt_GetFontVMetrics(&font, &ascent, &descent, &gap);
    printf("%d glyphs, ascent %d, descent %d, gap %d, kerning of AW %d\n", font.numGlyphs, ascent, descent, gap,
           stbtt_GetCodepointKernAdvance(&font, 'A', 'W'));
    for (const char *letter = letters; *letter != 0; letter++) {
        draw(&font, *letter, 12);
        draw(&font, *letter, 24);
    }
    return 0;
}
