// The core from C++: a handle that frees its core, and a store and a load.
#include <cstdint>
#include <cstdio>

#include "tower_heap.h"
#include "tower_images.h"
#include "tower_text.h"

class Core {
    tower handle = TOWER_NONE;
    std::uint32_t status;

public:
    explicit Core(std::uint32_t frames) : status(tower_boot(frames, &handle)) {}
    ~Core() { tower_free(&handle); }
    Core(const Core &) = delete;
    Core &operator=(const Core &) = delete;

    bool is_booted() const { return status == TOWER_BOOTED; }
    std::uint32_t frames() const { return tower_frames(&handle); }

    [[nodiscard]] tower_outcome step(const tower_event &event, tower_reply &reply) {
        return tower_do(&handle, event, &reply);
    }
};

/* Makes an event, and prints it and its reply as lines. */
static bool logs(Core &core, const tower_event &event) {
    char line[TOWER_TEXT_BYTES], told[TOWER_TEXT_BYTES];
    tower_reply reply{};
    bool is_done = core.step(event, reply) == TOWER_OUTCOME_DONE;
    bool fits = tower_event_text(&event, line, sizeof line) < sizeof line &&
                tower_reply_text(&reply, told, sizeof told) < sizeof told;
    std::printf("from C++: %s: %s\n", line, told);
    return is_done && fits;
}

int main() {
    Core core(TOWER_MIN_FRAMES);
    const std::uint32_t address = TOWER_FIRST_PAGE << 12;
    bool holds = core.is_booted() && core.frames() == TOWER_MIN_FRAMES && tower_version() == TOWER_VERSION;
    holds = holds && logs(core, tower_store(0, address, 4, 7)) && logs(core, tower_load(0, address, 4));
    std::puts(holds ? "from C++: a word is stored and loaded" : "from C++: NO");
    return holds ? 0 : 1;
}
