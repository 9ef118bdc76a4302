#define _GNU_SOURCE
#include "frames.h"

#include <fcntl.h>
#include <stdio.h>
#include <string.h>
#include <sys/mman.h>
#include <sys/resource.h>
#include <unistd.h>

#include "kernel.h"
#include "need.h"

enum { NO_FILE = 0, ZEROS = 0 }; /* a lazy page is on the frame of zeros, which no event changes */

static struct {
    int file, read_only; /* the second is for those that may not write: another descriptor of the file, once one is needed */
    uint32_t count;      /* how many pages of engines are on the file */
} frames[TOWER_MAX_FRAMES];

void frames_begin(uint32_t count) {
    enum { OTHERS = 256 };
    struct rlimit most;
    need(getrlimit(RLIMIT_NOFILE, &most) == 0, "a limit of descriptors");
    most.rlim_cur = most.rlim_max;
    if (most.rlim_max < 2 * count + OTHERS || setrlimit(RLIMIT_NOFILE, &most) != 0) {
        fail("a process may open too few files (ulimit -Hn) for so many frames", "--frames");
    }
}

/* ---- What an engine was given */

static struct given *find(struct engine *it, uint32_t page) {
    for (uint32_t i = 0; i < it->given_count; i++) {
        if (it->given[i].page == page) {
            return &it->given[i];
        }
    }
    return NULL;
}

static void tell_out(struct engine *it, struct given *which) {
    if (which->is_in) {
        need(it->next.out_count < MOST_PAGES, "an engine is told each page once");
        it->outs[it->next.out_count++] = which->page;
    }
    which->is_in = false;
    it->next.has_page = it->next.has_page && it->next.page != which->page;
}

static void forget(struct engine *it, struct given *which) {
    frames[which->frame].count--;
    *which = it->given[--it->given_count];
}

void frames_forget(struct engine *it) {
    while (it->given_count) {
        forget(it, it->given);
    }
}

/* ---- Files */

/* The frame is memory of that file from now on, or of none, and has the same bytes. */
static void move(uint32_t frame, int file) {
    static uint8_t bytes[PAGE_BYTES];
    uint8_t *at = kernel.memory + (size_t)frame * PAGE_BYTES;
    int flags = MAP_FIXED | MAP_POPULATE | (file == NO_FILE ? MAP_PRIVATE | MAP_ANONYMOUS : MAP_SHARED);
    memcpy(bytes, at, PAGE_BYTES);
    need(mmap(at, PAGE_BYTES, PROT_READ | PROT_WRITE, flags, file, 0) == at, "a frame moves");
    memcpy(at, bytes, PAGE_BYTES);
}

/* What is mapped of the old file faults in any process, so not even two that keep it have it in common. */
static void replace(uint32_t frame, int file) {
    int old = frames[frame].file;
    move(frame, file);
    need(old == NO_FILE || (ftruncate(old, 0) == 0 && close(old) == 0), "a file is emptied");
    need(frames[frame].read_only == NO_FILE || close(frames[frame].read_only) == 0, "a file is closed");
    frames[frame].file = file;
    frames[frame].read_only = NO_FILE;
    for (uint32_t pid = 0; frames[frame].count && pid < TOWER_PROCESSES; pid++) {
        struct engine *it = &kernel.engines[pid];
        for (uint32_t i = it->given_count; i-- > 0;) {
            if (it->given[i].frame == frame) {
                tell_out(it, &it->given[i]);
                forget(it, &it->given[i]);
            }
        }
    }
}

void frames_revoke(uint32_t pid, uint32_t page, uint32_t frame) {
    struct given *found = find(&kernel.engines[pid], page);
    if (frame != ZEROS && frames[frame].file != NO_FILE) {
        replace(frame, NO_FILE);
    } else if (found) {
        need(found->frame == ZEROS, "a page was on the frame of its translation");
        tell_out(&kernel.engines[pid], found);
        forget(&kernel.engines[pid], found);
    }
}

/* Nothing that is mapped by a descriptor for reading can be written, and an engine can't open another. */
static int file_of(uint32_t frame, bool may) {
    if (frames[frame].file == NO_FILE) {
        int file = memfd_create("frame", MFD_CLOEXEC);
        need(file >= 0 && ftruncate(file, PAGE_BYTES) == 0, "there is a file for a frame");
        replace(frame, file);
    }
    if (!may && frames[frame].read_only == NO_FILE) {
        char path[32];
        snprintf(path, sizeof path, "/proc/self/fd/%d", frames[frame].file);
        frames[frame].read_only = open(path, O_RDONLY | O_CLOEXEC);
        need(frames[frame].read_only > 0, "a file is opened for reading");
    }
    return may ? frames[frame].file : frames[frame].read_only;
}

void frames_show(uint32_t pid, uint32_t page, uint32_t frame, bool may, bool write) {
    struct engine *it = &kernel.engines[pid];
    int file = file_of(frame, may);
    struct given *before = find(it, page);
    if (before) {
        need(before->frame == frame || before->frame == ZEROS, "a page stays on its frame until it is taken back");
        forget(it, before);
    }
    need(it->given_count < MOST_PAGES && !it->next.has_page, "an engine has no more pages than the core has frames");
    it->given[it->given_count++] = (struct given){page, frame, write, true};
    frames[frame].count++;
    it->file = file;
    it->next.page = page;
    it->next.write = write;
    it->next.has_page = true;
}
