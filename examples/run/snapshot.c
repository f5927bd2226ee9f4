/* Snapshots of a world, and worlds again that go on as that does: snapshot IMAGE DIGEST [FILE], with the image's SHA-256 in
 * hexadecimal. The host says "all is so", or what isn't, and writes the last snapshot to the file. */
#include "alike.h"
#include "sfi_run_snapshot.h"

enum { TIMES = 30, MOST_STEPS = 400, TOGETHER = 300, ROOM = 1 << 22 };

static uint8_t digest[32], bytes[ROOM], others[ROOM];
static size_t size;

/* A step of each sandbox, or an answer. */
static void step(struct sfi_run_world *world) {
    struct sfi_run_event event;
    for (uint32_t i = 0; i < sfi_run_count(world); i++)
        if (sfi_run_turn(world, i, 1, &event) == SFI_RUN_CALL)
            answers(world, i, &event, NULL);
}

/* Whether all sandboxes stand alike, but for what their steps had been. */
static bool all_alike(struct sfi_run_world *one, struct sfi_run_world *other, const uint64_t *had) {
    uint32_t i;
    for (i = 0; i < sfi_run_count(one); i++)
        if (!stand_alike(one, other, i) || sfi_run_steps(one, i) - sfi_run_steps(other, i) != had[i])
            return false;
    return i == sfi_run_count(other);
}

static void goes_on_alike(const char *name, struct sfi_run_world *world) {
    struct sfi_run_world again = SFI_RUN_NO_WORLD;
    uint64_t had[16];
    load_file(name, &again);
    wanted(sfi_run_restore(&again, digest, bytes, size, had) == SFI_RUN_SNAPSHOT_DONE, "it is restored");
    for (uint32_t i = 0; i < sfi_run_count(world); i++) {
        wanted(had[i] == sfi_run_steps(world, i), "its steps are told");
        had[i] -= sfi_run_steps(&again, i);
    }
    for (int k = 0; k < TOGETHER; k++) {
        wanted(all_alike(world, &again, had), "it goes on as the first");
        step(world), step(&again);
    }
    sfi_run_free(&again);
}

/* Takes a snapshot as soon as it can be. */
static void take(struct sfi_run_world *world) {
    enum sfi_run_snapshot how;
    size = sfi_run_snapshot_size(world);
    for (int tries = 0; (how = sfi_run_take(world, digest, bytes, size)) == SFI_RUN_SNAPSHOT_NOT_NOW && tries < MOST_STEPS; tries++)
        step(world);
    wanted(how == SFI_RUN_SNAPSHOT_DONE && !memcmp(bytes, "SNAP", 4), "it is taken");
    wanted(sfi_run_take(world, digest, others, ROOM) == SFI_RUN_SNAPSHOT_DONE && !memcmp(bytes, others, size), "and nothing changes");
    wanted(sfi_run_take(world, digest, others, size - 1) == SFI_RUN_SNAPSHOT_NO_ROOM, "a room that is too small");
}

static enum sfi_run_snapshot restored(const char *name, const uint8_t *of, size_t length) {
    struct sfi_run_world world = SFI_RUN_NO_WORLD;
    load_file(name, &world);
    const enum sfi_run_snapshot how = sfi_run_restore(&world, digest, of, length, NULL);
    sfi_run_free(&world);
    return how;
}

/* Other bytes than those of the snapshot. */
static void refused(const char *name) {
    for (size_t at = 0; at < size; at += at < 400 ? 1 : 97) {
        memcpy(others, bytes, size);
        others[at] ^= (uint8_t)(1 + any() % 255);
        wanted(restored(name, others, size) == SFI_RUN_SNAPSHOT_BROKEN, "a byte that changed");
        wanted(restored(name, bytes, at) == SFI_RUN_SNAPSHOT_BROKEN, "a snapshot that is cut");
    }
    static const uint32_t forged[][3] = {{4, 2, SFI_RUN_SNAPSHOT_BROKEN}, {8, 0, SFI_RUN_SNAPSHOT_OTHER_IMAGE},
        {40, 99, SFI_RUN_SNAPSHOT_BROKEN}, {44, SFI_RUN_TRAPPED, SFI_RUN_SNAPSHOT_WRONG}, {44, 9, SFI_RUN_SNAPSHOT_WRONG},
        {52, 2, SFI_RUN_SNAPSHOT_WRONG}, {56, 1, SFI_RUN_SNAPSHOT_WRONG}, {56 + 4 * 26, 0, SFI_RUN_SNAPSHOT_WRONG},
        {192, 16, SFI_RUN_SNAPSHOT_WRONG}, {196, 16, SFI_RUN_SNAPSHOT_WRONG}};
    for (size_t k = 0; k < sizeof forged / sizeof *forged; k++) {
        memcpy(others, bytes, size);
        sfi_run_put_word(others + forged[k][0], forged[k][1]);
        sfi_run_put_word(others + size - 4, sfi_run_sum(others, size - 4));
        wanted(restored(name, others, size) == (enum sfi_run_snapshot)forged[k][2], "a forged word");
    }
}

static void read_digest(const char *text) {
    unsigned byte;
    for (int k = 0; k < 32; k++) {
        wanted(sscanf(text + 2 * k, "%2x", &byte) == 1, "64 digits");
        digest[k] = (uint8_t)byte;
    }
}

int main(int count, char **words) {
    struct sfi_run_world world = SFI_RUN_NO_WORLD;
    if (count < 3 || strlen(words[2]) != 64)
        return 3;
    read_digest(words[2]);
    load_file(words[1], &world);
    for (int k = 0; k < TIMES; k++) {
        take(&world);
        goes_on_alike(words[1], &world);
        for (uint32_t steps = any() % MOST_STEPS; steps > 0; steps--)
            step(&world);
    }
    take(&world);
    refused(words[1]);
    sfi_run_free(&world);
    FILE *file = count > 3 ? fopen(words[3], "wb") : NULL;
    if (file && (fwrite(bytes, 1, size, file) != size || fclose(file)))
        return 5;
    printf("all is so\n");
    return 0;
}
