/* What sfi_run.h and sfi_run_serve.h say of names, tried on an image that is spelled here as docs/IMAGE.md has it: of one
 * sandbox, whose code is 64 times ebreak. Of an image in a file it lists the names of the first sandbox, up to the status that
 * ends a list, and the signature of the import `log`.
 *
 *     names          # prints "all is so", or what isn't
 *     names IMAGE
 */
#include "sfi_run_serve.h"
#include <stdio.h>
#include <stdlib.h>
#include <string.h>

enum { CODE = 0x01000000, DATA = 0x01800000 };

static uint8_t image[1 << 20];
static size_t length;

static void wanted(bool is_so, const char *what) {
    if (is_so)
        return;
    printf("not so: %s\n", what);
    exit(1);
}

static void put(uint32_t number) {
    for (int k = 0; k < 4; k++)
        image[length++] = (uint8_t)(number >> 8 * k);
}

static void put_text(const char *text) {
    const size_t size = strlen(text);
    memcpy(image + length, text, size);
    length += size;
}

struct entry {
    uint32_t number;
    const char *name;
};

/* Puts entries, and returns how many bytes they have. */
static uint32_t put_entries(const struct entry *entries) {
    const size_t before = length;
    for (; entries->name != NULL; entries++) {
        put(entries->number);
        image[length++] = (uint8_t)strlen(entries->name);
        put_text(entries->name);
    }
    return (uint32_t)(length - before);
}

static void make(const struct entry *exports, const struct entry *imports) {
    const size_t head = 4 + 8 * 4 + 64 * 4;
    length = head;
    const uint32_t exports_size = put_entries(exports), imports_size = put_entries(imports);
    const uint32_t numbers[] = {5, exports_size, imports_size};
    for (int k = 0; k < 3; k++)
        put(numbers[k]);
    put_text("SFIN");
    const uint32_t all = (uint32_t)length, fields[] = {1, CODE, 256, DATA, 4096, CODE, 0, all - (uint32_t)head};
    length = 0;
    put_text("SFI1");
    for (int k = 0; k < 8; k++)
        put(fields[k]);
    for (int k = 0; k < 64; k++)
        put(0x00100073);
    length = all;
}

typedef uint32_t lister(const uint8_t *, size_t, uint32_t, uint32_t, uint8_t *, uint32_t *, uint32_t *);

/* Whether the entry there is this one, and the rest of the place stays; or, without a name, whether nothing is written. */
static bool is_entry(lister *list, uint32_t sandbox, uint32_t index, uint32_t status, uint32_t number, const char *name) {
    uint8_t found[SFI_RUN_NAME_MOST];
    uint32_t size = 0xAAAAAAAA, address = 0xAAAAAAAA;
    memset(found, 0xAA, sizeof found);
    if (list(image, length, sandbox, index, found, &size, &address) != status)
        return false;
    const size_t written = name ? strlen(name) : 0;
    for (size_t k = written; k < sizeof found; k++)
        if (found[k] != 0xAA)
            return false;
    return name ? size == written && !memcmp(found, name, written) && address == number : size == 0xAAAAAAAA && address == size;
}

static void lists(void) {
    char longest[SFI_RUN_NAME_MOST + 1];
    memset(longest, 'x', SFI_RUN_NAME_MOST);
    longest[SFI_RUN_NAME_MOST] = 0;
    const struct entry exports[] = {{CODE, "add"}, {7, "add"}, {0xFFFFFFFF, longest}, {0, NULL}};
    const struct entry imports[] = {{CODE + 16, "log"}, {0, NULL}}, none[] = {{0, NULL}};
    make(exports, imports);
    wanted(is_entry(sfi_run_export_at, 0, 0, SFI_RUN_NAMES_FOUND, CODE, "add"), "the first export");
    wanted(is_entry(sfi_run_export_at, 0, 1, SFI_RUN_NAMES_FOUND, 7, "add"), "the second of its name");
    wanted(is_entry(sfi_run_export_at, 0, 2, SFI_RUN_NAMES_FOUND, 0xFFFFFFFF, longest), "the longest name");
    wanted(is_entry(sfi_run_export_at, 0, 3, SFI_RUN_NAMES_NO_NAME, 0, NULL), "none after the last export");
    wanted(is_entry(sfi_run_export_at, 0, UINT32_MAX, SFI_RUN_NAMES_NO_NAME, 0, NULL), "nor far behind it");
    wanted(is_entry(sfi_run_import_at, 0, 0, SFI_RUN_NAMES_FOUND, CODE + 16, "log"), "the first import");
    wanted(is_entry(sfi_run_import_at, 0, 1, SFI_RUN_NAMES_NO_NAME, 0, NULL), "none after the last import");
    wanted(is_entry(sfi_run_export_at, 1, 0, SFI_RUN_NAMES_NO_SANDBOX, 0, NULL), "no other sandbox");
    image[length - 1] = 'M';
    wanted(is_entry(sfi_run_export_at, 0, 0, SFI_RUN_NAMES_NO_TABLE, 0, NULL), "no table without its magic");
    image[length - 1] = 'N';
    image[0] = 's';
    wanted(is_entry(sfi_run_import_at, 0, 0, SFI_RUN_NAMES_NO_IMAGE, 0, NULL), "no image");
    const struct entry bad[] = {{CODE, "a b"}, {0, NULL}};
    make(bad, none);
    wanted(is_entry(sfi_run_import_at, 0, 0, SFI_RUN_NAMES_BAD_TABLE, 0, NULL), "a table with a space in a name");
    make(none, none);
    wanted(is_entry(sfi_run_export_at, 0, 0, SFI_RUN_NAMES_NO_NAME, 0, NULL), "no entry of an empty table");
}

static bool claims(enum sfi_run_side side, const char *name, const char *signature) {
    char found[SFI_RUN_NAME_MOST] = "as before";
    const uint32_t status = sfi_run_signature(image, length, 0, side, name, found);
    return status == (signature ? SFI_RUN_NAMES_FOUND : SFI_RUN_NAMES_NO_NAME) &&
           !strcmp(found, signature ? signature : "as before");
}

static void signatures(void) {
    const struct entry exports[] = {
        {CODE, "add"},    {7, ".add(u)v"},   {0, ".add"},        {0, ".add(x)i"},       {0, ".add(ii)"},     {0, "add(s)s"},
        {0, ".add(ii)i"}, {0, ".add(uu)u"},  {0, ".ad(s)s"},     {0, ".none()v"},       {0, ".all(iulfp)d"}, {0, ".bytes(sbw)s"},
        {0, ".wide(b)b"}, {0, ".wide(v)v"},  {0, ".wide(i)ii"},  {0, ".wide(i)i)i"},    {0, ".many(iiiiiiii)m"},
        {0, ".nine(iiiiiiiii)i"},            {0, ".five(lmdbi)i"}, {0, ".operator()(i)i"},
        {0, ".narrow(ychkt)t"},              {0, ".nine_narrow(ychktychk)t"}, {0, NULL}};
    const struct entry imports[] = {{CODE + 16, "log"}, {0, ".log(s)v"}, {4096, ".stack"}, {64, ".room"}, {0, NULL}};
    make(exports, imports);
    wanted(claims(SFI_RUN_EXPORTS, "add", "(ii)i"), "the first claim that can be read");
    wanted(claims(SFI_RUN_EXPORTS, "ad", "(s)s"), "a name that another begins with");
    wanted(claims(SFI_RUN_EXPORTS, "none", "()v"), "no parameters and no result");
    wanted(claims(SFI_RUN_EXPORTS, "all", "(iulfp)d"), "letters of numbers");
    wanted(claims(SFI_RUN_EXPORTS, "narrow", "(ychkt)t"), "letters of narrow numbers");
    wanted(claims(SFI_RUN_EXPORTS, "nine_narrow", NULL), "not nine of them");
    wanted(claims(SFI_RUN_EXPORTS, "bytes", "(sbw)s"), "letters of bytes");
    wanted(claims(SFI_RUN_EXPORTS, "many", "(iiiiiiii)m"), "eight words");
    wanted(claims(SFI_RUN_EXPORTS, "nine", NULL) && claims(SFI_RUN_EXPORTS, "five", NULL), "not nine");
    wanted(claims(SFI_RUN_EXPORTS, "wide", NULL), "results and parameters that aren't");
    wanted(claims(SFI_RUN_EXPORTS, "operator()", "(i)i"), "a name ends at the last bracket");
    wanted(claims(SFI_RUN_EXPORTS, "", NULL) && claims(SFI_RUN_EXPORTS, "log", NULL), "what isn't claimed");
    wanted(claims(SFI_RUN_IMPORTS, "log", "(s)v") && claims(SFI_RUN_IMPORTS, "add", NULL), "those of imports");
    wanted(sfi_run_signature(image, length, 1, SFI_RUN_EXPORTS, "add", (char[SFI_RUN_NAME_MOST]){0}) == SFI_RUN_NAMES_NO_SANDBOX,
           "why there is no table");
}

static void signatures_of_so_many(void) {
    struct entry exports[SFI_RUN_SIGNED_MOST + 2] = {{CODE, "add"}, {0, ".add(ii)i"}};
    const struct entry none[] = {{0, NULL}};
    for (uint32_t k = 2; k < SFI_RUN_SIGNED_MOST; k++)
        exports[k].name = "x";
    make(exports, none);
    wanted(claims(SFI_RUN_EXPORTS, "add", "(ii)i"), "a claim among so many names");
    exports[SFI_RUN_SIGNED_MOST].name = "x";
    make(exports, none);
    wanted(claims(SFI_RUN_EXPORTS, "add", NULL), "none among more");
}

static void print(lister *list, const char *what) {
    uint8_t name[SFI_RUN_NAME_MOST];
    uint32_t size, number, status, index = 0;
    while ((status = list(image, length, 0, index++, name, &size, &number)) == SFI_RUN_NAMES_FOUND)
        printf("%s %08x %.*s\n", what, (unsigned)number, (int)size, (const char *)name);
    printf("%s status %u\n", what, (unsigned)status);
}

int main(int count, char **words) {
    char signature[SFI_RUN_NAME_MOST] = "none";
    FILE *file = count == 2 ? fopen(words[1], "rb") : NULL;
    if (file) {
        length = fread(image, 1, sizeof image, file);
        print(sfi_run_export_at, "export");
        print(sfi_run_import_at, "import");
        sfi_run_signature(image, length, 0, SFI_RUN_IMPORTS, "log", signature);
        printf("log %s\n", signature);
        return 0;
    }
    lists();
    signatures();
    signatures_of_so_many();
    puts("all is so");
    return 0;
}
