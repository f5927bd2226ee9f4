/*
 * Both libraries in one program: what sfi_run_load says of an image is what sfi_c_check says, whatever memory there is.
 *
 *     load STATUS FAULT SANDBOXES BUNDLES FINDINGS SANDBOX ADDRESS RULE < IMAGE        # the fields of its verdict
 *
 * The heap of libsfi_run.a is one of this file, in the place of crates/sfi_run/c/heap.c: it can refuse.
 */
#include "expect.h"
#include "sfi_run.h"

/* ---- a heap that gives a number of blocks, and none after them */

static size_t given, most = SIZE_MAX, blocks;

struct tried {
    bool done;
    void *block;
};

static struct tried refused(void) {
    static uint8_t none;
    return (struct tried){false, &none};
}

struct tried rattle_alloc(size_t size, size_t alignment) {
    void *block;
    if (given >= most)
        return refused();
    given++;
    blocks++;
    block = malloc(size ? size : alignment);
    return block ? (struct tried){true, block} : refused();
}

struct tried rattle_realloc(void *block, size_t kept, size_t size, size_t alignment) {
    void *moved;
    (void)kept;
    if (given >= most)
        return refused();
    given++;
    moved = realloc(block, size ? size : alignment);
    return moved ? (struct tried){true, moved} : refused();
}

void rattle_dealloc(void *block) {
    blocks--;
    free(block);
}

/* ---- loading an image where at most `room` blocks of memory are given */

static uint32_t try_load(const uint8_t *bytes, size_t length, const struct sfi_verdict *wanted, size_t room) {
    uint8_t *image = copy_of(bytes, length);
    struct sfi_run_world world = {0};
    struct sfi_verdict verdict[3];
    uint32_t status;
    memset(verdict, MARK, sizeof verdict);
    given = 0;
    most = room;
    status = sfi_run_load(image, length, &world, verdict + 1);
    free(image); /* a world has its own copy */
    expect(!memcmp(verdict + 1, wanted, sizeof *wanted), "verdict", room);
    expect(is_marked(verdict, sizeof *verdict) && is_marked(verdict + 2, sizeof *verdict), "written around the verdict", room);
    expect(sfi_run_count(&world) == (status == SFI_RUN_LOADED ? wanted->sandboxes : 0), "count of sandboxes", room);
    sfi_run_free(&world);
    expect(blocks == 0, "blocks that weren't given back", blocks);
    return status;
}

int main(int argc, char **argv) {
    static uint8_t image[MOST_LENGTH];
    size_t length = fread(image, 1, sizeof image, stdin), room = 0;
    struct sfi_verdict wanted, checked;
    if (argc != 1 + FIELDS)
        return 6;
    wanted = verdict_of(argv + 1);
    expect(sfi_c_check(image, length, &checked) == wanted.status, "sfi_c_check", 0);
    expect(!memcmp(&checked, &wanted, sizeof wanted), "verdict of sfi_c_check", 0);
    if (wanted.status != SFI_ACCEPTED) { /* the statuses of both libraries are the same numbers */
        expect(try_load(image, length, &wanted, 0) == wanted.status, "status without memory", 0);
        expect(given == 0 && try_load(image, length, &wanted, SIZE_MAX) == wanted.status && given == 0, "memory taken", given);
    } else {
        while (try_load(image, length, &wanted, room) == SFI_RUN_NO_MEMORY)
            room++;
        expect(room > 0 && room == given, "blocks for a world", room);
        expect(try_load(image, length, &wanted, room) == SFI_RUN_LOADED, "status", room);
    }
    return ended("load");
}
