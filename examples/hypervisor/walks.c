#include "probe.h"
#include "raw.h"
#include "trial.h"
#include "walk.h"

static uint32_t found, outside, early, codes[8];

/* One access of a round, and the two words that lead to it. */
struct attempt {
    uint32_t entry, address, value, directory_word, table_word;
    bool is_store, is_byte;
};

static uint32_t random_word(uint32_t first, uint32_t last) {
    uint32_t frame = first + random(last - first + 1);
    switch (random(8)) {
    case 0: frame = RAW + random(0x100000 - RAW); break;
    case 1: frame = RAW; break;
    }
    uint32_t flags = random(4096);
    flags |= random(8) ? PRESENT : 0;
    flags |= random(3) ? USER : 0;
    flags |= random(3) ? WRITE : 0;
    return frame << 12 | flags;
}

static struct attempt random_attempt(void) {
    static const uint32_t entries[] = {LOAD4, LOAD1, STORE4, STORE1};
    struct attempt it = {.entry = entries[random(4)]};
    it.is_store = it.entry >= STORE4;
    it.is_byte = it.entry == LOAD1 || it.entry == STORE1;
    uint32_t offset = it.is_byte ? random(4096) : 4 * random(1024);
    do {
        it.address = random(1024) << 22 | random(1024) << 12 | offset;
    } while (it.address >> 22 == STUB_AT >> 22);
    it.value = random(0xffffffff);
    it.directory_word = random_word(2, 5);
    it.table_word = random_word(2, 13);
    return it;
}

static void put_words(uint8_t *memory, const struct attempt *it) {
    uint32_t word = it->directory_word;
    ((uint32_t *)(memory + RAW_DIRECTORY * FRAME))[it->address >> 22] = word;
    if (word >> 12 < RAW) {
        ((uint32_t *)(memory + (size_t)(word >> 12) * FRAME))[it->address >> 12 & 1023] = it->table_word;
    }
}

/* Changes the model as an access does whose walk finds a frame. Returns the value of a load. */
static uint32_t complete(const struct attempt *it, struct walk *walk) {
    uint32_t loaded = 0;
    uint8_t *place = model + (size_t)walk->frame * FRAME + (it->address & 4095);
    *walk->directory_word |= ACCESSED;
    *walk->table_word |= ACCESSED | (it->is_store ? DIRTY : 0);
    if (it->is_store) {
        memmove(place, &it->value, it->is_byte ? 1 : 4);
    } else {
        memmove(&loaded, place, it->is_byte ? 1 : 4);
    }
    found++;
    return loaded;
}

/* Returns whether the processor marked a word of the model in its walk, though the access did not complete. The model
 * then has the same word. */
static bool was_marked(uint32_t *word, uint32_t marks) {
    uint32_t *set = (uint32_t *)(raw + ((uint8_t *)word - model));
    bool marked = *set != *word;
    need((*set & ~marks) == (*word & ~marks) && (*set & *word) == *word, "a walk that ends badly sets its marks alone");
    *word = *set;
    return marked;
}

static void compare_end(const struct attempt *it, struct walk *walk, uint32_t loaded) {
    svm_forget_all(); /* no event wrote these words, and none says what it ended */
    uint64_t exit = run_probe(RAW_IDENTIFIER);
    switch (walk->kind) {
    case WALK_FOUND:
        need(exit == EXIT_CALL, "a walk that finds a frame ends in it");
        need(it->is_store || svm_eax(probe()) == loaded, "a load gives the frame's bytes");
        return;
    case WALK_FAULT:
        need(exit == EXIT_PAGE_FAULT && svm_fault_address(probe()) == it->address && svm_fault_code(probe()) == walk->code,
             "a walk that faults gives that code");
        codes[walk->code]++;
        break;
    default:
        need(exit == EXIT_OUTSIDE && svm_fault_address(probe()) == walk->beyond, "a walk leaves memory there");
        if (walk->table_word) {
            was_marked(walk->table_word, ACCESSED | DIRTY);
        }
        outside++;
    }
    early += was_marked(walk->directory_word, ACCESSED);
}

void try_walks(uint32_t rounds) {
    begin_raw();
    for (uint32_t round = 0; round < rounds; round++) {
        struct attempt it = random_attempt();
        put_words(raw, &it);
        put_words(model, &it);
        struct walk walk = walk_of(model, RAW, RAW_DIRECTORY, it.address, it.is_store);
        uint32_t loaded = walk.kind == WALK_FOUND ? complete(&it, &walk) : 0;
        open_probe(RAW_DIRECTORY, it.entry, it.address, it.value);
        compare_end(&it, &walk, loaded);
        compare_raw();
    }
    say("walks: %u found, %u codes 4, %u codes 5, %u codes 6, %u codes 7, %u left memory; %u marked a directory's word "
        "and went no further\n", found, codes[4], codes[5], codes[6], codes[7], outside, early);
}
