/* The sandbox that checks after each event and access that all that the engines have is what the walks read, that a page that
 * may be written is dirty, and that no process of the host has anything else of the core's memory. The linker puts it around
 * the kernel's functions. */
#define _GNU_SOURCE
#include <stdio.h>
#include <stdlib.h>
#include <string.h>
#include <unistd.h>

#include "../../kernel.h"
#include "../../need.h"

static unsigned long long checks;

static bool is_what_a_walk_reads(uint32_t pid, const struct given *given) {
    struct tower_walk walk;
    struct tower_page found;
    uint32_t at = 0;
    return tower_walk(&kernel.core, pid, given->page << 12, given->write, &walk) && walk.kind == TOWER_WALK_FRAME &&
           walk.frame == given->frame && tower_next_page(&kernel.core, pid, given->page, &at, &found) &&
           (!given->write || found.dirty);
}

static bool is_to_be_told(const struct engine *it, uint32_t page) {
    bool is_found = it->next.has_page && it->next.page == page;
    for (uint32_t i = 0; !is_found && i < it->next.out_count; i++) {
        is_found = it->outs[i] == page;
    }
    return is_found;
}

/* ---- What the host has mapped */

static unsigned long inodes[TOWER_MAX_FRAMES]; /* of the file that is mapped in a frame's place; 0 if there is none */

struct mapping {
    unsigned long from, to, inode;
    bool may_write;
    const char *name; /* up to the end of the line */
};

/* A line of the host's on mappings: FROM-TO RIGHTS OFFSET DEVICE INODE, and mostly a name. */
static struct mapping mapping_of(const char *line) {
    char *at;
    struct mapping it = {.from = strtoul(line, &at, 16)};
    it.to = strtoul(at + 1, &at, 16);
    it.may_write = at[2] == 'w';
    (void)strtoul(at + 5, &at, 16);
    it.inode = strtoul(at + 1 + strcspn(at + 1, " "), &at, 10);
    it.name = at;
    return it;
}

static FILE *open_mappings(pid_t process) {
    static char path[64], buffer[1 << 16];
    snprintf(path, sizeof path, "/proc/%d/maps", process);
    FILE *maps = fopen(path, "re");
    if (maps) {
        setvbuf(maps, buffer, _IOFBF, sizeof buffer);
    }
    return maps;
}

/* The block has the file of each frame mapped in the frame's place. */
static void read_own(void) {
    static char line[512];
    unsigned long block = (unsigned long)(uintptr_t)kernel.memory, end = block + sizeof inodes / sizeof *inodes * PAGE_BYTES;
    FILE *maps = open_mappings(getpid());
    need(maps != NULL, "the host says what is mapped");
    memset(inodes, 0, sizeof inodes);
    while (fgets(line, sizeof line, maps)) {
        struct mapping it = mapping_of(line);
        if (it.from >= block && it.from < end) {
            inodes[(it.from - block) / PAGE_BYTES] = it.inode;
        }
    }
    fclose(maps);
}

static bool is_given(const struct engine *it, uint32_t page, unsigned long inode, bool write) {
    for (uint32_t i = 0; i < it->given_count; i++) {
        const struct given *given = &it->given[i];
        if (given->page == page && given->is_in) {
            return inodes[given->frame] == inode && (given->write || !write);
        }
    }
    return false;
}

static bool are_all_given(const struct engine *it) {
    static char line[512];
    bool are_all = true;
    FILE *maps = open_mappings(it->process);
    while (maps && fgets(line, sizeof line, maps)) {
        struct mapping of = mapping_of(line);
        if (strstr(of.name, "/memfd:frame")) {
            uint32_t page = (uint32_t)(of.from / PAGE_BYTES);
            are_all = are_all && of.to - of.from == PAGE_BYTES &&
                      (is_to_be_told(it, page) || is_given(it, page, of.inode, of.may_write));
        }
    }
    if (maps) {
        fclose(maps);
    }
    return are_all;
}

static struct tower_reply check(struct tower_reply reply) {
    read_own();
    for (uint32_t pid = 0; pid < TOWER_PROCESSES; pid++) {
        const struct engine *it = &kernel.engines[pid];
        for (uint32_t i = 0; i < it->given_count; i++) {
            const struct given *given = &it->given[i];
            need(!given->is_in || is_what_a_walk_reads(pid, given), "an engine has what the walks read");
        }
        bool is_read = engine_is_open(it) && !it->is_waited_for;
        need(!is_read || are_all_given(it), "a process of the host has what its engine was given");
    }
    checks++;
    return reply;
}

struct tower_reply __real_kernel_event(struct tower_event event);
struct tower_reply __wrap_kernel_event(struct tower_event event);
struct tower_reply __wrap_kernel_event(struct tower_event event) {
    return check(__real_kernel_event(event));
}

struct tower_reply __real_kernel_fault(uint32_t pid, uint32_t address, bool is_store);
struct tower_reply __wrap_kernel_fault(uint32_t pid, uint32_t address, bool is_store);
struct tower_reply __wrap_kernel_fault(uint32_t pid, uint32_t address, bool is_store) {
    return check(__real_kernel_fault(pid, address, is_store));
}

struct tower_reply __real_kernel_end(uint32_t pid, struct tower_processes *exited);
struct tower_reply __wrap_kernel_end(uint32_t pid, struct tower_processes *exited);
struct tower_reply __wrap_kernel_end(uint32_t pid, struct tower_processes *exited) {
    return check(__real_kernel_end(pid, exited));
}

struct tower_reply __real_kernel_take_back(uint32_t pid, uint32_t page);
struct tower_reply __wrap_kernel_take_back(uint32_t pid, uint32_t page);
struct tower_reply __wrap_kernel_take_back(uint32_t pid, uint32_t page) {
    return check(__real_kernel_take_back(pid, page));
}

static void __attribute__((destructor)) say(void) {
    fprintf(stderr, "%llu checks\n", checks);
}
