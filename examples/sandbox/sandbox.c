/* Runs programs for 32-bit x86 as tenants: the core has their memory, an engine each runs their code.
 *
 *     sandbox [options] [NAME=]PROGRAM[:ARGUMENT]...
 */
#include <errno.h>
#include <fcntl.h>
#include <stdio.h>
#include <stdlib.h>
#include <string.h>
#include <unistd.h>

#include "kernel.h"
#include "need.h"
#include "store.h"
#include "tenants.h"
#include "tower_images.h"
#include "tower_region.h"

static const char usage[] =
    "usage: sandbox [--frames N] [--turn N] [--after N] [--engines N] [--save FILE] [--count]\n"
    "               {--load FILE | [--quota N] [--seconds N] [NAME=]PROGRAM[:ARGUMENT]...}\n"
    "--frames N   the core's frames, 16 to 4096: 4096 by default\n"
    "--quota N    the quota of each program after it, in frames, 1 to 4096: 64 by default\n"
    "--seconds N  a program after it, or any of --load, is ended after that processor time: 1 to 1000000, 10 by default\n"
    "--turn N     turns of N steps, each a call or a page fault\n"
    "--after N    stops all tenants once N steps are made\n"
    "--engines N  how many engines are open at a time, 1 to 63: 32 by default\n"
    "--save FILE  if tenants are left at that stop, or at SIGINT or SIGTERM, stores them\n"
    "--load FILE  resumes what --save stored\n"
    "--count      prints at the end what was counted\n";

static const uint64_t SECOND = 1000000000;
static uint64_t frames = TOWER_MAX_FRAMES, quota = 64, seconds = 10;
static const char *save_to, *load_from;
static bool counts;

static const struct {
    const char *name;
    uint64_t *value, low, high;
} numbers[] = {
    {"--frames", &frames, TOWER_MIN_FRAMES, TOWER_MAX_FRAMES}, {"--quota", &quota, 1, TOWER_MAX_FRAMES},
    {"--seconds", &seconds, 1, 1000000},                       {"--turn", &limits.turn, 1, INT64_MAX},
    {"--after", &limits.after, 1, INT64_MAX},                  {"--engines", &limits.engines, 1, TOWER_PROCESSES - 1},
};

/* All of the text is a number in that range, in decimal, or in hexadecimal after 0x. */
static uint64_t number(const char *text, uint64_t low, uint64_t high) {
    char *end;
    errno = 0;
    unsigned long long it = strtoull(text, &end, strncmp(text, "0x", 2) == 0 ? 16 : 10);
    if (*text < '0' || *text > '9' || *end || errno || it < low || it > high) {
        fail("no number that is allowed there", text);
    }
    return it;
}

/* Returns how many words were taken: an option, and its value. */
static int take_option(const char *word, const char *value) {
    for (size_t i = 0; value && i < sizeof numbers / sizeof *numbers; i++) {
        if (strcmp(word, numbers[i].name) == 0) {
            *numbers[i].value = number(value, numbers[i].low, numbers[i].high);
            return 2;
        }
    }
    if (value && (strcmp(word, "--save") == 0 || strcmp(word, "--load") == 0)) {
        *(word[2] == 's' ? &save_to : &load_from) = value;
        return 2;
    }
    counts |= strcmp(word, "--count") == 0;
    return strcmp(word, "--count") == 0;
}

/* The name of a file, without its folder and without .elf. */
static const char *name_of(char *path) {
    char *slash = strrchr(path, '/'), *end = strrchr(path, '.');
    if (end && strcmp(end, ".elf") == 0) {
        *end = 0;
    }
    return slash ? slash + 1 : path;
}

/* [NAME=]PROGRAM[:ARGUMENT]. A NAME= has no slash before it, and an :ARGUMENT none after it: so any file can be named, such
 * as NAME=./a=b:c.elf:0. */
static void begin(const char *of) {
    char *word = strdup(of), *slash = strchr(word, '/'), *equals = strchr(word, '=');
    bool is_named = equals && (!slash || equals < slash);
    char *path = is_named ? equals + 1 : word, *colon = strrchr(path, ':');
    bool has_argument = colon && !strchr(colon, '/');
    uint32_t argument = has_argument ? (uint32_t)number(colon + 1, 0, UINT32_MAX) : 0;
    if (has_argument) {
        *colon = 0;
    }
    if (is_named) {
        *equals = 0;
    }
    char *copy = strdup(path);
    const char *name = is_named ? word : name_of(copy);
    if (strlen(name) > 30 || !is_name(name)) {
        fail("a name of 1 to 30 letters is needed, without spaces and brackets", of);
    }
    tenant_begin(name, path, (uint32_t)quota, argument, seconds * SECOND);
    free(word);
    free(copy);
}

/* Options and programs, in their order: the core is made before the first program, and begins with process 0. */
static void begin_all(int count, char **words) {
    for (int i = 1, taken = 1; i < count; i += taken, taken = 1) {
        if (strncmp(words[i], "--", 2) != 0) {
            if (!kernel.core.live) {
                kernel_boot((uint32_t)frames);
            }
            begin(words[i]);
        } else if ((taken = take_option(words[i], i + 1 < count ? words[i + 1] : NULL)) == 0) {
            fputs(usage, stderr);
            exit(2);
        }
    }
}

static struct rattle_tried heap_alloc(size_t size, size_t align) {
    void *block = malloc(size ? size : align);
    return (struct rattle_tried){block != NULL, block ? block : (void *)&frames};
}

static struct rattle_tried heap_realloc(void *block, size_t kept, size_t size, size_t align) {
    void *moved = realloc(block, size ? size : align);
    (void)kept;
    return (struct rattle_tried){moved != NULL, moved ? moved : (void *)&frames};
}

/* The first three descriptors are open, so that no file of the sandbox's own is taken for the terminal. */
static void open_terminal(void) {
    int file;
    do {
        file = open("/dev/null", O_RDWR | O_CLOEXEC);
    } while (file >= 0 && file <= 2);
    close(file);
}

/* The core's memory is still sound, although the engines wrote there. */
static void check(void) {
    struct tower_verdict verdict;
    need(tower_check(&kernel.core, &verdict) == TOWER_SOUND, "the core is sound at the end");
}

int main(int count, char **words) {
    static const struct tower_other_heap heap = {heap_alloc, heap_realloc, free};
    open_terminal();
    tower_set_other_heap(&heap);
    begin_all(count, words);
    if (!kernel.core.live == !load_from) {
        fputs(usage, stderr);
        return 2;
    }
    if (save_to && !store_can_save(save_to)) {
        fail("no ordinary file", save_to);
    }
    if (load_from) {
        store_load(load_from, seconds * SECOND);
    }
    bool are_saved = tenants_run() && save_to;
    fflush(stdout);
    if (are_saved) {
        tenants_park();
    }
    check();
    if (are_saved) {
        store_save(save_to);
        fprintf(stderr, "sandbox: tenants stored: %u\n", queue.count);
    }
    kernel_close();
    if (counts) {
        print_counts();
    }
    return 0;
}
