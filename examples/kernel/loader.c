#include "loader.h"

#include "calls.h"
#include "spaces.h"

/* What the loader reads of an ELF file. */
struct header {
    uint8_t letters[4], bits, order, version, more[9];
    uint16_t kind, machine;
    uint32_t version_again;
    uint64_t entry, segments_at, sections_at;
    uint32_t flags;
    uint16_t header_bytes, segment_bytes, segments;
};

struct segment {
    uint32_t kind, flags;
    uint64_t offset, address, physical, file_bytes, memory_bytes, align;
};

enum { LETTERS = 0x464c457f, BITS_64 = 2, LOW_FIRST = 1, EXECUTABLE = 2, X86_64 = 62, TO_LOAD = 1, MAY_WRITE = 2 };

extern const struct {
    const char *name;
    const uint8_t *begin, *end;
} programs[PROGRAMS];

const char *program_name(uint32_t program) {
    return programs[program].name;
}

static bool is_program(const struct header *it) {
    uint32_t letters;
    memmove(&letters, it->letters, sizeof letters);
    return letters == LETTERS && it->bits == BITS_64 && it->order == LOW_FIRST && it->kind == EXECUTABLE &&
           it->machine == X86_64 && it->segment_bytes == sizeof(struct segment);
}

/* The files are the image's own, and no process writes them: their offsets are not checked. Addresses are, as the core
 * takes 32 bits of each. What lies after the file's bytes is zeros, as the core gives them at the first access. */
static struct tower_reply load_segment(uint32_t pid, const uint8_t *file, const struct segment *it) {
    struct tower_reply told = {.kind = TOWER_DONE};
    need(it->file_bytes <= it->memory_bytes, "a segment has space for the file's bytes");
    need(it->address + it->memory_bytes <= STACK_TOP, "a program lies below its stack");
    if (it->kind == TO_LOAD && it->file_bytes) {
        told = load_bytes(pid, (uint32_t)it->address, file + it->offset, it->file_bytes, it->flags & MAY_WRITE);
    }
    return told;
}

struct tower_reply load_program(uint32_t program, uint32_t pid, uint64_t *entry) {
    const uint8_t *file = programs[program].begin;
    const struct header *header = (const struct header *)file;
    struct tower_reply told = {.kind = TOWER_DONE};
    need(is_program(header), "the image's programs are ELF files of 64 bits");
    const struct segment *segments = (const struct segment *)(file + header->segments_at);
    for (uint32_t i = 0; i < header->segments && told.kind == TOWER_DONE; i++) {
        told = load_segment(pid, file, &segments[i]);
    }
    *entry = header->entry;
    return told;
}
