#define _GNU_SOURCE
#include "store.h"

#include <fcntl.h>
#include <libgen.h>
#include <stdio.h>
#include <stdlib.h>
#include <string.h>
#include <sys/stat.h>
#include <unistd.h>

#include "kernel.h"
#include "need.h"
#include "tenants.h"
#include "tower_region_images.h"

enum { VERSION = 4, MOST_FRONT = TOWER_FRONT_LENGTH(TOWER_PROCESSES * TOWER_OFFERS) };
enum { MOST_IMAGE = MOST_FRONT + TOWER_RECORD_BYTES * TOWER_MAX_FRAMES };

/* The file: this, the records in the order of the queue, and the core's snapshot, which has the offers. */
struct head {
    char magic[8];
    uint32_t version, record_bytes, tenants;
};
struct record {
    uint32_t pid;
    struct tenant tenant;
};
static const struct head EMPTY = {.magic = "sandbox", .version = VERSION, .record_bytes = sizeof(struct record)};

/* ---- Save */

static bool put(FILE *file, const void *bytes, size_t count) {
    return fwrite(bytes, 1, count, file) == count;
}

static bool put_tenants(FILE *file) {
    struct head head = EMPTY;
    head.tenants = queue.count;
    bool is_put = put(file, &head, sizeof head);
    for (uint32_t i = 0; is_put && i < queue.count; i++) {
        struct record one = {.pid = queue.pids[i], .tenant = tenants[queue.pids[i]]};
        is_put = put(file, &one, sizeof one);
    }
    return is_put;
}

/* Piece by piece: what it begins with, and each frame that isn't free. */
static bool put_image(FILE *file) {
    static uint8_t front[MOST_FRONT], frame[TOWER_RECORD_BYTES];
    size_t size = 0;
    bool is_put = tower_store_front(&kernel.core, front, sizeof front, &size) == TOWER_STORED && put(file, front, size);
    for (uint32_t i = 0; is_put && i < tower_frames(&kernel.core); i++) {
        uint32_t status = tower_store_frame(&kernel.core, i, frame, sizeof frame);
        is_put = status == TOWER_STORE_FREE_FRAME || (status == TOWER_STORED && put(file, frame, sizeof frame));
    }
    return is_put;
}

/* The folder's entry reaches the disk, too. */
static bool sync_folder(const char *path) {
    char *copy = strdup(path);
    int folder = copy ? open(dirname(copy), O_RDONLY | O_DIRECTORY | O_CLOEXEC) : -1;
    bool is_synced = folder >= 0 && fsync(folder) == 0;
    close(folder);
    free(copy);
    return is_synced;
}

/* A new file takes the place of the old one once all of it is on the disk. */
static bool replace(const char *path) {
    char *new = NULL;
    FILE *file = asprintf(&new, "%s.new", path) < 0 ? NULL : fopen(new, "wbe");
    if (!file) {
        return false;
    }
    bool is_written = put_tenants(file) && put_image(file) && fflush(file) == 0 && fsync(fileno(file)) == 0;
    is_written = fclose(file) == 0 && is_written && rename(new, path) == 0 && sync_folder(path);
    if (!is_written) {
        unlink(new);
    }
    free(new);
    return is_written;
}

void store_save(const char *path) {
    if (!replace(path)) {
        fail("can't write", path);
    }
}

bool store_can_save(const char *path) {
    struct stat file;
    return stat(path, &file) != 0 || S_ISREG(file.st_mode);
}

/* ---- Load: the file may be anybody's */

static void must(bool holds, const char *what) {
    if (!holds) {
        fail("no file of --save", what);
    }
}

static void take(FILE *file, void *bytes, size_t count) {
    must(fread(bytes, 1, count, file) == count, "it is too short");
}

static uint32_t take_head(FILE *file) {
    struct head head;
    take(file, &head, sizeof head);
    must(memcmp(head.magic, EMPTY.magic, sizeof head.magic) == 0, "it begins with something else");
    must(head.version == EMPTY.version && head.record_bytes == EMPTY.record_bytes, "it is of another version");
    must(head.tenants <= TOWER_PROCESSES, "it has too many tenants");
    return head.tenants;
}

/* The rest of the file. */
static void restore_core(FILE *file) {
    char why[32];
    struct tower_verdict verdict;
    uint8_t *image = malloc(MOST_IMAGE + 1);
    need(image != NULL, "there is memory for a snapshot");
    uint32_t status = kernel_restore(image, fread(image, 1, MOST_IMAGE + 1, file), &verdict);
    free(image);
    need(status != TOWER_RESTORE_NO_MEMORY, "there is memory for a core");
    if (status == TOWER_RESTORE_BAD_BLOCK) {
        fail("no core can be made of its snapshot", "more than 4096 frames");
    } else if (status != TOWER_RESTORED) {
        tower_verdict_text(status, &verdict, why, sizeof why);
        fail("no core can be made of its snapshot", why);
    }
}

static bool is_record(const struct record *one) {
    return one->pid != 0 && one->pid < TOWER_PROCESSES && kernel_parent(one->pid) != NO_PROCESS && !tenants[one->pid].runs &&
           one->tenant.runs == 1 && one->tenant.length <= MOST_LINE && one->tenant.text <= MOST_TEXT &&
           is_name(one->tenant.name);
}

static void enter(const struct record *one, uint64_t nanoseconds) {
    must(is_record(one), "a tenant in it is wrong");
    tenant_enter(one->pid, one->tenant.name, &one->tenant.start);
    tenants[one->pid] = one->tenant;
    if (one->tenant.most > nanoseconds) {
        tenants[one->pid].most = nanoseconds;
    }
}

/* A process runs, and its parent does or is process 0; or it runs nothing, and its parent does. So one that runs nothing has
 * no children. The families follow from the parents. */
static void check_families(void) {
    for (uint32_t pid = 1; pid < TOWER_PROCESSES; pid++) {
        int first = (int)pid, parent = kernel_parent(pid);
        must(parent == NO_PROCESS || tenants[parent ? parent : first].runs, "a tenant is missing");
        for (; parent > 0; parent = kernel_parent((uint32_t)first)) {
            first = parent;
        }
        tenants[pid].family = (uint8_t)first;
    }
}

void store_load(const char *path, uint64_t nanoseconds) {
    static struct record records[TOWER_PROCESSES];
    FILE *file = fopen(path, "rbe");
    if (!file) {
        fail("can't read", path);
    }
    uint32_t count = take_head(file);
    take(file, records, count * sizeof *records);
    restore_core(file);
    fclose(file);
    for (uint32_t i = 0; i < count; i++) {
        enter(&records[i], nanoseconds);
    }
    check_families();
}
