// A host in C++: a world that is freed with its object, and that can be moved.
//
//     world IMAGE    # the image's own bytes; prints what each sandbox puts out, and how it stands after 1000 steps
#include "sfi_run.h"
#include <cstdio>
#include <fstream>
#include <iterator>
#include <utility>
#include <vector>

class World {
    struct sfi_run_world raw = SFI_RUN_NO_WORLD;

  public:
    struct sfi_verdict verdict = {};
    uint32_t status = SFI_RUN_NO_IMAGE;

    explicit World(const std::vector<uint8_t> &image) {
        static const uint8_t none = 0; // no pointer is NULL, also that of 0 bytes
        status = sfi_run_load(image.empty() ? &none : image.data(), image.size(), &raw, &verdict);
    }
    World(World &&other) noexcept : verdict(other.verdict), status(other.status) { std::swap(raw, other.raw); }
    World &operator=(World &&other) noexcept {
        std::swap(raw, other.raw), std::swap(verdict, other.verdict), std::swap(status, other.status);
        return *this;
    }
    ~World() { sfi_run_free(&raw); }

    struct sfi_run_world *get() { return &raw; }
    uint32_t size() { return static_cast<uint32_t>(sfi_run_count(&raw)); }
};

// The bytes that a sandbox puts out by service 1; service 0 has it exit.
static std::vector<uint8_t> run(World &world, uint32_t i, uint64_t steps) {
    std::vector<uint8_t> output;
    struct sfi_run_event event;
    uint64_t now;
    while ((now = sfi_run_steps(world.get(), i)) < steps &&
           sfi_run_turn(world.get(), i, static_cast<uint32_t>(steps - now), &event) == SFI_RUN_CALL) {
        uint8_t room[256];
        if (event.number == 0) {
            sfi_run_exit(world.get(), i, event.a0);
        } else if (event.number == 1 && sfi_run_read(world.get(), i, event.a0, event.a1, room, sizeof room)) {
            output.insert(output.end(), room, room + event.a1);
            sfi_run_reply(world.get(), i, event.a1, event.a1);
        } else {
            sfi_run_reply(world.get(), i, UINT32_MAX, event.a1);
        }
    }
    return output;
}

int main(int count, char **words) {
    if (count != 2 || sfi_run_version() / 256 != SFI_RUN_VERSION_NUMBER / 256)
        return 3;
    std::ifstream file(words[1], std::ios::binary);
    World loaded(std::vector<uint8_t>(std::istreambuf_iterator<char>(file), {}));
    World world = std::move(loaded);
    if (world.status != SFI_RUN_LOADED) {
        std::fprintf(stderr, "status %u, rule %u, layout fault %u\n", world.status, world.verdict.first.rule, world.verdict.layout_fault);
        return static_cast<int>(world.status);
    }
    for (uint32_t i = 0; i < world.size(); i++) {
        std::vector<uint8_t> output = run(world, i, 1000);
        struct sfi_run_event event;
        uint32_t kind = sfi_run_event(world.get(), i, &event);
        std::printf("%.*s kind %u number %u\n", static_cast<int>(output.size()), reinterpret_cast<const char *>(output.data()), kind, event.number);
    }
    return 0;
}
