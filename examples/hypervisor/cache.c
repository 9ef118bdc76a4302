#include "cache.h"
#include "machine.h"
#include "wrong.h"

enum { MOST_KEPT = 4096 };

/* What one processor caches: a translation, by the page's number, or a directory's word, by its place there. */
struct kept {
    uint32_t identifier, number;
    uint32_t leads_to; /* a translation's frame; otherwise the word itself */
    bool write, dirty; /* of a translation: whether it allows writes, and whether dirty is set */
    uint32_t *table_word;
};

struct list {
    struct kept kept[MOST_KEPT];
    uint32_t count;
};

/* One processor: all that it caches, and how often it found a page in each way. */
static struct cache {
    struct list translations, directory_words;
    uint32_t found_kept, found_walked, walked_again;
} caches[CACHES];

static uint8_t *memory;

void cache_open(uint8_t *of) {
    memory = of;
    memset(caches, 0, sizeof caches);
}

static struct kept *find(struct list *in, uint32_t identifier, uint32_t number) {
    for (struct kept *one = in->kept; one < in->kept + in->count; one++) {
        if (one->identifier == identifier && one->number == number) {
            return one;
        }
    }
    return 0;
}

static struct kept *keep(struct list *in, struct kept one) {
    need(in->count < MOST_KEPT, "a processor has room for all that it keeps");
    in->kept[in->count] = one;
    return &in->kept[in->count++];
}

static void drop(struct list *in, struct kept *one) {
    *one = in->kept[--in->count];
}

static void forget(struct list *in, uint32_t identifier, uint32_t number) {
    struct kept *one = find(in, identifier, number);
    if (one) {
        drop(in, one);
    }
}

/* Forgets, as INVLPGA does, the page's translation and the words that lead to it. */
void cache_forget_page_of(uint32_t cpu, uint32_t identifier, uint32_t page) {
    forget(&caches[cpu].translations, identifier, page);
    if (wrong != WRONG_TABLE) {
        forget(&caches[cpu].directory_words, identifier, page >> 10);
    }
}

void cache_forget_page(uint32_t identifier, uint32_t page) {
    uint32_t of = wrong == WRONG_CPU ? 1 : CACHES;
    for (uint32_t cpu = 0; cpu < of; cpu++) {
        cache_forget_page_of(cpu, identifier, page);
    }
}

void cache_forget_all_of(uint32_t cpu) {
    caches[cpu].translations.count = caches[cpu].directory_words.count = 0;
}

void cache_forget_all(void) {
    for (uint32_t cpu = 0; cpu < CACHES; cpu++) {
        cache_forget_all_of(cpu);
    }
}

static uint32_t *word_at(uint32_t frame, uint32_t index) {
    return (uint32_t *)(memory + (size_t)frame * FRAME) + index;
}

/* Returns the directory's word for an address: the cached one, otherwise memory's, which is cached if it is present. */
static uint32_t directory_word(const struct access *it, uint32_t address) {
    struct list *words = &caches[it->cpu].directory_words;
    struct kept *one = find(words, it->identifier, address >> 22);
    if (one) {
        return one->leads_to;
    }
    uint32_t *word = word_at(it->directory, address >> 22);
    if (*word & PRESENT) {
        *word |= ACCESSED;
        keep(words, (struct kept){it->identifier, address >> 22, .leads_to = *word});
    }
    return *word;
}

/* Returns the translation of a page that two words lead to. */
static struct kept translation_of(const struct access *it, uint32_t page, uint32_t first, uint32_t *table_word) {
    uint32_t last = *table_word;
    return (struct kept){it->identifier, page, last >> 12, first & last & WRITE, last & DIRTY, table_word};
}

/* Walks, and sets accessed and dirty. What the walk finds is cached. */
static struct walk walk_and_keep(const struct access *it, uint32_t address, struct kept **kept) {
    struct cache *cache = &caches[it->cpu];
    uint32_t word = directory_word(it, address);
    struct walk walk = walk_by(memory, FRAMES, word, address, it->is_store);
    if (walk.kind == WALK_FOUND) {
        *walk.table_word |= ACCESSED | (it->is_store ? DIRTY : 0);
        *kept = keep(&cache->translations, translation_of(it, address >> 12, word, walk.table_word));
        cache->found_walked++;
    }
    return walk;
}

/* Returns whether what is cached lets an access through. A refusal from the cache decides nothing, since the right may
 * have been granted later. A store needs dirty, too: a processor walks again to set it. */
static bool lets_through(const struct kept *kept, const struct access *it) {
    return !it->is_store || (kept->write && (kept->dirty || wrong == WRONG_DIRTY));
}

/* Translates an address: from the cache, if that lets the access through, otherwise with a walk. */
static struct walk translate(const struct access *it, uint32_t address) {
    struct cache *cache = &caches[it->cpu];
    struct kept *kept = find(&cache->translations, it->identifier, address >> 12);
    if (kept && !lets_through(kept, it)) {
        if (wrong == WRONG_REFUSAL && !kept->write) {
            return (struct walk){.kind = WALK_FAULT, .code = 7};
        }
        drop(&cache->translations, kept);
        kept = 0;
        cache->walked_again++;
    }
    if (!kept) {
        struct walk walk = walk_and_keep(it, address, &kept);
        if (walk.kind != WALK_FOUND) {
            return walk;
        }
    } else {
        cache->found_kept++;
    }
    return (struct walk){.kind = WALK_FOUND, .frame = kept->leads_to};
}

/* Copies the bytes of an access, one by one, in the frames of its pages. */
static void move_bytes(struct access *it, uint32_t first, uint32_t second) {
    uint32_t loaded = 0;
    for (uint32_t i = 0; i < it->size; i++) {
        uint32_t address = it->address + i;
        bool is_second = address >> 12 != it->address >> 12;
        uint8_t *byte = memory + (size_t)(is_second ? second : first) * FRAME + (address & 4095);
        if (it->is_store) {
            *byte = (uint8_t)(it->value >> 8 * i);
        }
        loaded |= (uint32_t)*byte << 8 * i;
    }
    it->value = loaded;
}

struct walk cache_access(struct access *it) {
    uint32_t last = it->address + it->size - 1;
    struct walk first = translate(it, it->address), second = first;
    if (first.kind != WALK_FOUND) {
        return first;
    }
    if (last >> 12 != it->address >> 12) {
        second = translate(it, last & ~4095u);
        if (second.kind != WALK_FOUND) {
            it->address = last & ~4095u;
            return second;
        }
    }
    move_bytes(it, first.frame, second.frame);
    return first;
}

/* Caches one in place of what was cached of it. */
static void keep_anew(struct list *in, const struct access *it, struct kept one) {
    struct kept *old = find(in, it->identifier, one.number);
    if (old) {
        drop(in, old);
    }
    keep(in, one);
}

static bool are_none(const uint32_t *eight) {
    const uint64_t *pairs = (const uint64_t *)eight;
    return (pairs[0] | pairs[1] | pairs[2] | pairs[3]) == 0;
}

/* Returns the first index from `index` on whose word may be present: most words of a directory and of a table are 0. */
static uint32_t next_in(uint32_t frame, uint32_t index) {
    while (index < FRAME / 4 && index % 8 == 0 && are_none(word_at(frame, index))) {
        index += 8;
    }
    return index;
}

static void keep_accessed_in(const struct access *it, uint32_t slot, uint32_t word) {
    uint32_t table = word >> 12;
    for (uint32_t index = next_in(table, 0); index < FRAME / 4; index = next_in(table, index + 1)) {
        uint32_t *last = word_at(table, index);
        if ((*last & PRESENT) && (*last & ACCESSED)) {
            keep_anew(&caches[it->cpu].translations, it, translation_of(it, slot << 10 | index, word, last));
        }
    }
}

void cache_keep_accessed(uint32_t cpu, uint32_t identifier, uint32_t directory) {
    struct access it = {.cpu = cpu, .identifier = identifier, .directory = directory};
    for (uint32_t slot = next_in(directory, 0); slot < FRAME / 4; slot = next_in(directory, slot + 1)) {
        uint32_t word = *word_at(directory, slot);
        if ((word & PRESENT) && (word & ACCESSED)) {
            keep_anew(&caches[cpu].directory_words, &it, (struct kept){identifier, slot, .leads_to = word});
            keep_accessed_in(&it, slot, word);
        }
    }
}

static bool is_translation_given(const struct kept *one, uint32_t directory) {
    struct walk walk = walk_of(memory, FRAMES, directory, one->number << 12, one->write);
    return walk.kind == WALK_FOUND && walk.frame == one->leads_to && walk.table_word == one->table_word &&
           (*walk.table_word & ACCESSED) && (!one->dirty || (*walk.table_word & DIRTY));
}

static bool is_word_given(const struct kept *one, uint32_t directory) {
    return (one->leads_to | ACCESSED) == (*word_at(directory, one->number) | ACCESSED);
}

static bool are_given(const struct list *in, uint32_t identifier, uint32_t directory,
                      bool (*is_given)(const struct kept *one, uint32_t directory)) {
    for (const struct kept *one = in->kept; one < in->kept + in->count; one++) {
        if (one->identifier == identifier && !is_given(one, directory)) {
            return false;
        }
    }
    return true;
}

bool cache_is_given(uint32_t cpu, uint32_t identifier, uint32_t directory) {
    return are_given(&caches[cpu].translations, identifier, directory, is_translation_given) &&
           are_given(&caches[cpu].directory_words, identifier, directory, is_word_given);
}

void cache_counts(uint32_t *kept, uint32_t *walked, uint32_t *again) {
    *kept = *walked = *again = 0;
    for (const struct cache *one = caches; one < caches + CACHES; one++) {
        *kept += one->found_kept;
        *walked += one->found_walked;
        *again += one->walked_again;
    }
}
