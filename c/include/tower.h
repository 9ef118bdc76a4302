/* The kernel's core, for C. docs/C-LIBRARY.md says what is proved of each function, and what C owes:
 *
 *  - The handle is a `struct tower` in storage of the caller's own. Fill it with zeros (or with
 *    TOWER_NONE) once, and then pass it only to these functions. Write none of its fields, and make no
 *    copy of it, since two copies would own one core.
 *  - One call at a time for each handle. It may come from any thread or CPU, under a lock of the
 *    caller's own. Calls with different handles need no common lock. Over blocks of tower_region.h, calls that allocate
 *    or free do: they come one at a time, whatever their handles are.
 *  - Each pointer is to memory that is valid, aligned and, unless it is const, writable. No other argument
 *    of the same call shares that memory. A slice is a pointer and its length. If the length is 0, the
 *    pointer may be NULL. Each `bool` is 0 or 1.
 *  - memset and memmove do what the C library's do, and rattle_alloc and rattle_dealloc what
 *    tower_heap.h says. No call is made from a signal handler.
 *  - An address or a page is passed whole, with up to 64 bits. One of more than 32 bits makes no event, and no function
 *    finds, copies or changes anything there. The prototypes below are the archive's, which take 32 bits. At the end of
 *    this file are functions of the same names, which programs call.
 *
 * A query takes a const handle: it leaves the core as it was. It is still a call, and comes one at a time
 * with the others. The handle itself isn't a const object: the call takes the core out of it and puts it
 * back.
 */
#ifndef TOWER_H
#define TOWER_H

#include <stdbool.h>
#include <stddef.h>
#include <stdint.h>

#ifdef __cplusplus
extern "C" {
#endif

/* A compiler warns if the result of a function with this mark is not used. */
#if defined(__cplusplus) ? __cplusplus >= 201703L : defined(__STDC_VERSION__) && __STDC_VERSION__ >= 202311L
#define TOWER_NODISCARD [[nodiscard]]
#elif defined(__GNUC__)
#define TOWER_NODISCARD __attribute__((warn_unused_result))
#else
#define TOWER_NODISCARD
#endif

/* The header's version: 10,000 for each major version, 100 for each minor one, 1 for each patch.
 * tower_version() returns the library's. */
#define TOWER_VERSION 200

/* Limits. A page is an address without its last 12 bits; the user range has the pages from
 * TOWER_FIRST_PAGE to TOWER_LAST_PAGE. A process's number is below TOWER_PROCESSES. */
#define TOWER_FRAME_BYTES 4096
#define TOWER_MIN_FRAMES 16
#define TOWER_MAX_FRAMES 4096
#define TOWER_WIDE_FRAMES 1048576 /* of tower_boot_wide: 4 GiB, all that a page word can name */
#define TOWER_PROCESSES 64
#define TOWER_OFFERS 32 /* pending, for each offerer */
#define TOWER_FIRST_PAGE 0x40000
#define TOWER_LAST_PAGE 0xeffff

struct tower {
    bool live;
    void *core;
};
#ifdef __cplusplus
#define TOWER_NONE {false, nullptr}
#else
#define TOWER_NONE {false, NULL}
#endif

/* The statuses of boots. All but the first leave the handle as it was. */
enum tower_status {
    TOWER_BOOTED = 0,
    TOWER_BAD_SIZE = 1,     /* the number of frames is not 16 to 4,096; of a wide boot, not 16 to 1,048,576 */
    TOWER_NO_MEMORY = 2,
    TOWER_HAS_CORE = 3,     /* the handle has a core already */
    TOWER_BAD_BLOCK = 4,    /* of tower_boot_over only, which tower_region.h declares with the reasons */
};

/* The name of a status; "" for a number that is no status. */
static inline const char *tower_status_name(uint32_t status) {
    switch (status) {
    case TOWER_BOOTED: return "Booted";
    case TOWER_BAD_SIZE: return "BadSize";
    case TOWER_NO_MEMORY: return "NoMemory";
    case TOWER_HAS_CORE: return "HasCore";
    case TOWER_BAD_BLOCK: return "BadBlock";
    default: return "";
    }
}

/* Quota is a call, a kind of reply and a cause: TOWER_QUOTA, TOWER_USAGE and TOWER_OVER_QUOTA. Info is a call and a
 * kind: TOWER_INFO and TOWER_FLAGS. The functions for names return the names of docs/MACHINE.md, which are alike. */

/* The calls, and what each takes:    flag                first          second    third  */
enum tower_call {
    TOWER_LOAD = 0,                /* size, 1, 2 or 4     address                         */
    TOWER_STORE = 1,               /* size, 1, 2 or 4     address        value            */
    TOWER_MAP = 2,                 /* may write, 0 or 1   page                            */
    TOWER_UNMAP = 3,               /*                     page                            */
    TOWER_PROTECT = 4,             /* may write, 0 or 1   page                            */
    TOWER_INFO = 5,                /*                     page                            */
    TOWER_OFFER = 6,               /* may write, 0 or 1   page           target           */
    TOWER_WITHDRAW = 7,            /*                     page           target           */
    TOWER_ACCEPT = 8,              /*                     giver's page   giver     page   */
    TOWER_SPAWN = 9,               /*                     quota                           */
    TOWER_EXIT = 10,
    TOWER_QUOTA = 11,
    TOWER_FORK = 12,               /*                     quota                           */
};

/* The name of a call, as docs/MACHINE.md has it; "" for a number of no call. */
static inline const char *tower_call_name(uint32_t call) {
    switch (call) {
    case TOWER_LOAD: return "Load";
    case TOWER_STORE: return "Store";
    case TOWER_MAP: return "Map";
    case TOWER_UNMAP: return "Unmap";
    case TOWER_PROTECT: return "Protect";
    case TOWER_INFO: return "Info";
    case TOWER_OFFER: return "Offer";
    case TOWER_WITHDRAW: return "Withdraw";
    case TOWER_ACCEPT: return "Accept";
    case TOWER_SPAWN: return "Spawn";
    case TOWER_EXIT: return "Exit";
    case TOWER_QUOTA: return "Quota";
    case TOWER_FORK: return "Fork";
    default: return "";
    }
}

/* One event. A page is an address without its last 12 bits, a process 0 to 63. What a call does not take
 * is not read. With any other number of a call, process, size or right it is no event. */
struct tower_event {
    uint8_t cpu;
    uint8_t pid;
    uint8_t call;
    uint8_t flag;
    uint32_t first;
    uint32_t second;
    uint32_t third;
};

/* The right of Map, Protect and Offer, which a script calls `ro` and `rw`. */
enum tower_right {
    TOWER_READ_ONLY = 0,
    TOWER_READ_WRITE = 1,
};

/* A number in a byte. One that is too large becomes 255, which is no process, size or right. */
static inline uint8_t tower_byte(uint64_t number) {
    return number < 255 ? (uint8_t)number : (uint8_t)255;
}

/* The process if an address or a page has at most 32 bits; otherwise 255, which is no process. */
static inline uint32_t tower_pid_at(uint32_t pid, uint64_t place) {
    return place >> 32 ? 255 : pid;
}

/* An event of these numbers, from CPU 0. If one of them has more than 32 bits, it is no event. */
TOWER_NODISCARD static inline struct tower_event tower_event_of(uint64_t pid, uint64_t call, uint64_t flag,
                                                                uint64_t first, uint64_t second, uint64_t third) {
    uint8_t maker = (first | second | third) >> 32 ? (uint8_t)255 : tower_byte(pid);
    struct tower_event event = {0, maker, tower_byte(call), tower_byte(flag),
                                (uint32_t)first, (uint32_t)second, (uint32_t)third};
    return event;
}

/* The same event from another CPU. The CPU has no effect; a log may want it. */
TOWER_NODISCARD static inline struct tower_event tower_on_cpu(uint8_t cpu, struct tower_event event) {
    event.cpu = cpu;
    return event;
}

/* Each call as an event of process pid, from CPU 0. These only make the event, which tower_step carries out. The
 * arguments are in the order of docs/MACHINE.md. A size is 1, 2 or 4, a right one of enum tower_right. All but a value
 * take a register of 64 bits whole, such as a system call's: if the process, the size or the right is no such number, or
 * another number has more than 32 bits, tower_step replies TOWER_NO_EVENT. None is cut off, and becomes another. It is no
 * fault, since a fault's reply has an address of 32 bits. A value has 32 bits; C cuts off what a wider one has above. */
TOWER_NODISCARD static inline struct tower_event tower_load(uint64_t pid, uint64_t address, uint64_t size) {
    return tower_event_of(pid, TOWER_LOAD, size, address, 0, 0);
}

TOWER_NODISCARD static inline struct tower_event tower_store(uint64_t pid, uint64_t address, uint64_t size,
                                                             uint32_t value) {
    return tower_event_of(pid, TOWER_STORE, size, address, value, 0);
}

TOWER_NODISCARD static inline struct tower_event tower_map(uint64_t pid, uint64_t page, uint64_t right) {
    return tower_event_of(pid, TOWER_MAP, right, page, 0, 0);
}

TOWER_NODISCARD static inline struct tower_event tower_unmap(uint64_t pid, uint64_t page) {
    return tower_event_of(pid, TOWER_UNMAP, 0, page, 0, 0);
}

TOWER_NODISCARD static inline struct tower_event tower_protect(uint64_t pid, uint64_t page, uint64_t right) {
    return tower_event_of(pid, TOWER_PROTECT, right, page, 0, 0);
}

TOWER_NODISCARD static inline struct tower_event tower_info(uint64_t pid, uint64_t page) {
    return tower_event_of(pid, TOWER_INFO, 0, page, 0, 0);
}

TOWER_NODISCARD static inline struct tower_event tower_offer(uint64_t pid, uint64_t page, uint64_t target,
                                                             uint64_t right) {
    return tower_event_of(pid, TOWER_OFFER, right, page, target, 0);
}

TOWER_NODISCARD static inline struct tower_event tower_withdraw(uint64_t pid, uint64_t page, uint64_t target) {
    return tower_event_of(pid, TOWER_WITHDRAW, 0, page, target, 0);
}

/* `page` is the process's own page, at which it maps giver_page of the giver. */
TOWER_NODISCARD static inline struct tower_event tower_accept(uint64_t pid, uint64_t giver, uint64_t giver_page,
                                                              uint64_t page) {
    return tower_event_of(pid, TOWER_ACCEPT, 0, giver_page, giver, page);
}

TOWER_NODISCARD static inline struct tower_event tower_spawn(uint64_t pid, uint64_t quota) {
    return tower_event_of(pid, TOWER_SPAWN, 0, quota, 0, 0);
}

TOWER_NODISCARD static inline struct tower_event tower_exit(uint64_t pid) {
    return tower_event_of(pid, TOWER_EXIT, 0, 0, 0, 0);
}

TOWER_NODISCARD static inline struct tower_event tower_quota(uint64_t pid) {
    return tower_event_of(pid, TOWER_QUOTA, 0, 0, 0, 0);
}

TOWER_NODISCARD static inline struct tower_event tower_fork(uint64_t pid, uint64_t quota) {
    return tower_event_of(pid, TOWER_FORK, 0, quota, 0, 0);
}

/* The kinds of replies, and what each has:     first      second   third  */
enum tower_kind {
    TOWER_DONE = 0,
    TOWER_VALUE = 1,                         /* value                      */
    TOWER_CHILD = 2,                         /* process                    */
    TOWER_FLAGS = 3,                         /* holders, and the four bools */
    TOWER_USAGE = 4,                         /* quota      used     given  */
    TOWER_FAULT = 5,                         /* address    code            */
    TOWER_REFUSED = 6,                       /* cause                      */
    TOWER_NO_EVENT = 7,                      /* the numbers were no event  */
};

/* The name of a kind of reply, as docs/MACHINE.md has it; "" for a number of no kind. */
static inline const char *tower_kind_name(uint32_t kind) {
    switch (kind) {
    case TOWER_DONE: return "Done";
    case TOWER_VALUE: return "Value";
    case TOWER_CHILD: return "Child";
    case TOWER_FLAGS: return "Info";
    case TOWER_USAGE: return "Quota";
    case TOWER_FAULT: return "Fault";
    case TOWER_REFUSED: return "Refused";
    case TOWER_NO_EVENT: return "NoEvent";
    default: return "";
    }
}

enum tower_cause {
    TOWER_NO_PROCESS = 1,
    TOWER_BAD_PAGE = 2,
    TOWER_NOT_MAPPED = 4,                    /* 3 is the number of no cause */
    TOWER_MAPPED = 5,
    TOWER_OVER_QUOTA = 6,
    TOWER_RIGHTS = 7,
    TOWER_SELF_OFFER = 8,
    TOWER_NO_TARGET = 9,
    TOWER_OFFER_PENDING = 10,
    TOWER_TOO_MANY_OFFERS = 11,
    TOWER_NO_OFFER = 12,
    TOWER_TABLE_FULL = 13,
    TOWER_BAD_QUOTA = 14,
    TOWER_HAS_CHILDREN = 15,
    TOWER_ROOT_EXIT = 16,
    TOWER_TOO_SMALL = 17,
};

/* The name of a cause, as docs/MACHINE.md has it; "" for a number of no cause. */
static inline const char *tower_cause_name(uint32_t cause) {
    switch (cause) {
    case TOWER_NO_PROCESS: return "NoProcess";
    case TOWER_BAD_PAGE: return "BadPage";
    case TOWER_NOT_MAPPED: return "NotMapped";
    case TOWER_MAPPED: return "Mapped";
    case TOWER_OVER_QUOTA: return "Quota";
    case TOWER_RIGHTS: return "Rights";
    case TOWER_SELF_OFFER: return "SelfOffer";
    case TOWER_NO_TARGET: return "NoTarget";
    case TOWER_OFFER_PENDING: return "OfferPending";
    case TOWER_TOO_MANY_OFFERS: return "TooManyOffers";
    case TOWER_NO_OFFER: return "NoOffer";
    case TOWER_TABLE_FULL: return "TableFull";
    case TOWER_BAD_QUOTA: return "BadQuota";
    case TOWER_HAS_CHILDREN: return "HasChildren";
    case TOWER_ROOT_EXIT: return "RootExit";
    case TOWER_TOO_SMALL: return "TooSmall";
    default: return "";
    }
}

/* One reply. A field that its kind does not use is 0. */
struct tower_reply {
    uint32_t kind;
    uint32_t first;
    uint32_t second;
    uint32_t third;
    bool write;
    bool may;
    bool accessed;
    bool dirty;
};

/* The role of a frame. */
enum tower_service {
    TOWER_FRAME_RESERVED = 0,
    TOWER_FRAME_FREE = 1,
    TOWER_FRAME_DIRECTORY = 2,  /* of process pid */
    TOWER_FRAME_TABLE = 3,      /* of process pid, in its directory's slot */
    TOWER_FRAME_PAGE = 4,       /* that count slots share */
};

/* The name of a role; "" for a number that is no role. */
static inline const char *tower_service_name(uint32_t role) {
    switch (role) {
    case TOWER_FRAME_RESERVED: return "Reserved";
    case TOWER_FRAME_FREE: return "Free";
    case TOWER_FRAME_DIRECTORY: return "Directory";
    case TOWER_FRAME_TABLE: return "Table";
    case TOWER_FRAME_PAGE: return "Page";
    default: return "";
    }
}

struct tower_role {
    uint32_t kind;
    uint32_t pid;
    uint32_t slot;
    uint32_t count;
};

/* What a process may use, uses and gives to children, in frames. */
struct tower_container {
    uint32_t parent;
    uint32_t quota;
    uint32_t used;
    uint32_t given;
    uint32_t children;
};

/* How the processor's walk of a process's tables ends. (The function tower_end ends processes.) A field that its kind
 * does not use is 0. */
enum tower_end {
    TOWER_WALK_FRAME = 0,    /* at a frame */
    TOWER_WALK_FAULT = 1,    /* as a page fault with that error code */
    TOWER_WALK_OUTSIDE = 2,  /* at a word that names no frame of memory; a booted core has none */
};

/* The name of a walk's end; "" for a number that is no end. */
static inline const char *tower_end_name(uint32_t end) {
    switch (end) {
    case TOWER_WALK_FRAME: return "Frame";
    case TOWER_WALK_FAULT: return "Fault";
    case TOWER_WALK_OUTSIDE: return "Outside";
    default: return "";
    }
}

struct tower_walk {
    uint32_t kind;
    uint32_t frame;
    uint32_t code;
};

/* Which cached translations an event ends. A field that its kind does not use is 0. */
enum tower_ending {
    TOWER_ENDS_NOTHING = 0,
    TOWER_ENDS_PAGE = 1,     /* that of page first of process pid */
    TOWER_ENDS_PAGES = 2,    /* those of its pages first and second */
    TOWER_ENDS_SPACE = 3,    /* all of process pid, which is gone */
};

/* The name of what an event ends; "" for a number that is none. */
static inline const char *tower_ending_name(uint32_t ending) {
    switch (ending) {
    case TOWER_ENDS_NOTHING: return "Nothing";
    case TOWER_ENDS_PAGE: return "Page";
    case TOWER_ENDS_PAGES: return "Pages";
    case TOWER_ENDS_SPACE: return "Space";
    default: return "";
    }
}

struct tower_ended {
    uint32_t kind;
    uint32_t pid;
    uint32_t first;
    uint32_t second;
};

/* The library's version. */
uint32_t tower_version(void);

/* Boots a core of 16 to TOWER_MAX_FRAMES frames, and returns a status. Of the functions here only this one and
 * tower_boot_wide allocate, and only tower_free and a boot that fails free. */
TOWER_NODISCARD uint32_t tower_boot(uint32_t frames, struct tower *tower);

/* Boots a core as tower_boot does, but of 16 to TOWER_WIDE_FRAMES frames. */
TOWER_NODISCARD uint32_t tower_boot_wide(uint32_t frames, struct tower *tower);

/* Carries out one event. False if the handle has no core; then nothing is written. */
TOWER_NODISCARD bool tower_step(struct tower *tower, const struct tower_event *event, struct tower_reply *reply);

/* Carries out events in order. False if the handle has no core or the lengths differ; then nothing is
 * written. */
TOWER_NODISCARD bool tower_run(struct tower *tower, const struct tower_event *events, size_t event_count,
                               struct tower_reply *replies, size_t reply_count);

/* Carries out events in order up to the first that is refused, faults or is no event. Writes the reply to each in its
 * place, and to that one too; the other places are unchanged. `carried` becomes the number of events carried out, which
 * is the place of that one. If all were carried out, it is their number. False as for tower_run; then nothing is
 * written. */
TOWER_NODISCARD bool tower_run_until(struct tower *tower, const struct tower_event *events, size_t event_count,
                                     struct tower_reply *replies, size_t reply_count, size_t *carried);

/* Copy a process's memory out and in, as copyin and copyout do, with the effect of one-byte loads, or stores, in order,
 * up to the first that is refused or faults. `moved` becomes the number of bytes copied, and `stop` what stopped the
 * copy: TOWER_DONE if all were copied, TOWER_NO_EVENT if pid is no process's number.
 *
 * A read leaves the other bytes as they were. It maps a page that is not mapped, as a load does, and gives no page a
 * frame. A write gives lazy pages frames. A kernel whose processors cache translations then invalidates those of the
 * process's pages from the first byte's page to that of the last byte copied, before the next access or event.
 *
 * False if the handle has no core; then nothing is written. */
TOWER_NODISCARD bool tower_read(struct tower *tower, uint32_t pid, uint32_t address, uint8_t *bytes,
                                size_t byte_count, size_t *moved, struct tower_reply *stop);
TOWER_NODISCARD bool tower_write(struct tower *tower, uint32_t pid, uint32_t address, const uint8_t *bytes,
                                 size_t byte_count, size_t *moved, struct tower_reply *stop);

/* Which cached translations an event will end. A processor that caches what its walks gave invalidates these once the
 * event is carried out, and no others. It changes nothing of the core. False if the handle has no core or the numbers
 * are no event; then nothing is written. */
TOWER_NODISCARD bool tower_ends(const struct tower *tower, const struct tower_event *event, struct tower_ended *ended);

/* Whether an event may write a frame, if it were the next one, whatever its reply is. It may write frames that are free,
 * the directory, the tables and the pages of its process, and, if it is a TOWER_ACCEPT of a lazy page, the giver's
 * directory and that page's table. The frames that it frees are among them. Every other frame stays as it is, except that
 * accessed may be set or cleared in a directory's words. What a program keeps of those frames, as an emulator keeps
 * translated code, it drops. It changes nothing of the core. For a frame of a page it looks up the pages that
 * the process has mapped, up to that one, and for another frame one page at most. False if the handle has no core, the
 * numbers are no event or there is no such frame; then nothing is written. */
TOWER_NODISCARD bool tower_may_write(const struct tower *tower, const struct tower_event *event, uint32_t frame,
                                     bool *may);

/* Carries out one event, as tower_step does, and reports the cached translations that tower_ends would have reported
 * before it. A kernel whose processors cache what their walks gave invalidates these, on all processors, before the
 * next access or event. An event that was refused, faulted or was no event ends nothing. False if the handle has no
 * core; then nothing is written. What was ended is for the kernel; do not pass it on to a process. */
TOWER_NODISCARD bool tower_step_ending(struct tower *tower, const struct tower_event *event, struct tower_reply *reply,
                                       struct tower_ended *ended);

/* Handles a page fault of process pid in user mode, for a kernel whose processors walk something else than an event would
 * tell: it makes the access of the byte at that address, which is the TOWER_LOAD of it, or if `write` the TOWER_STORE of
 * the byte that is there. No byte of any process changes. If the page is not mapped it is mapped, and for a write it gets
 * a frame of its own. Accessed is set, and for a write dirty. Then the walk of the process's tables lets the access
 * through. `reply` and `ended` become those of the event: what was ended is invalidated before anything else is done.
 *
 * An address of more than 32 bits is outside the user range: a fault, at 0xffffffff. At a refusal or a fault nothing
 * changes. TOWER_NO_EVENT if pid is no process's number. False if the handle has no core; then nothing is written.
 *
 * Others may load and store in the page meanwhile, if their processors walk neither the process's tables nor its page's
 * word: the store writes no byte, but only the page's word. */
TOWER_NODISCARD bool tower_touch(struct tower *tower, uint32_t pid, uint64_t address, bool write,
                                 struct tower_reply *reply, struct tower_ended *ended);

/* Which cached translations tower_touch (and tower_shadow_fault) will end for these arguments, and no others. It changes
 * nothing. False if the handle has no core, or pid is no process's number; then nothing is written. */
TOWER_NODISCARD bool tower_touch_ends(const struct tower *tower, uint32_t pid, uint64_t address, bool write,
                                      struct tower_ended *ended);

/* How many frames the core has; 0 if the handle has no core. */
uint32_t tower_frames(const struct tower *tower);

/* These change nothing of the core, and write only if they return true. They return true exactly if there
 * is a core, and a live process of that number or such a frame. A walk is that of a load, or of a store
 * if `write` is true, at the first byte of the access; it sets no flag. A copy also returns false if
 * byte_count is not TOWER_FRAME_BYTES. */
TOWER_NODISCARD bool tower_directory(const struct tower *tower, uint32_t pid, uint32_t *frame);
TOWER_NODISCARD bool tower_container(const struct tower *tower, uint32_t pid, struct tower_container *container);
TOWER_NODISCARD bool tower_role(const struct tower *tower, uint32_t frame, struct tower_role *role);
TOWER_NODISCARD bool tower_walk(const struct tower *tower, uint32_t pid, uint32_t address, bool write,
                                struct tower_walk *found);
TOWER_NODISCARD bool tower_copy_frame(const struct tower *tower, uint32_t frame, uint8_t *bytes, size_t byte_count);

/* The state of a mapped page. */
struct tower_page {
    uint32_t holders;  /* slots that share it, this one among them */
    bool write;
    bool may;
    bool accessed;
    bool dirty;
    bool lazy;         /* it has no frame of its own yet */
};

/* Finds the lowest page from `from` on that a process has mapped, and its state. It changes nothing of the core. False
 * if there is no core, pid is no process's number, or the process has no page from there on; then nothing is written.
 * To iterate over all pages, begin with 0, and continue with the page after the one returned. */
TOWER_NODISCARD bool tower_next_page(const struct tower *tower, uint32_t pid, uint32_t from, uint32_t *page,
                                     struct tower_page *found);

/* Up to TOWER_PROCESSES processes: the first `count` places of `pids`. */
struct tower_processes {
    uint32_t count;
    uint32_t pids[TOWER_PROCESSES];
};

/* Lists a process's children in order of their numbers. It changes nothing of the core. A process that is not live has
 * none. False if there is no core or pid is no process's number; then nothing is written. */
TOWER_NODISCARD bool tower_children(const struct tower *tower, uint32_t pid, struct tower_processes *found);

/* A pending offer of a page. */
struct tower_offer {
    uint32_t page;
    uint32_t target;
    bool write;        /* the target may write to it */
};

/* Finds a process's first pending offer from a page and a target on, in the order of pages, and of targets for one page.
 * It changes nothing of the core. False if there is no core, pid is no process's number, or no such offer is pending;
 * then nothing is written. To iterate over all offers, begin with 0 and 0, and continue with the page of the one
 * returned and the target after its own. A target past 63 leads to the next page. */
TOWER_NODISCARD bool tower_next_offer(const struct tower *tower, uint32_t pid, uint32_t page, uint32_t target,
                                      struct tower_offer *offer);

/* A page of a process. */
struct tower_holder {
    uint32_t pid;
    uint32_t page;
};

/* Finds the lowest page from `from` on at which process `holder` also has page `page` of process pid: both share it. The
 * page itself is none of them. It changes nothing of the core, and looks up each page that the holder has mapped from
 * there on. False if there is no core, pid or holder is no process's number, or there is no such page; then nothing is
 * written. */
TOWER_NODISCARD bool tower_next_holder(const struct tower *tower, uint32_t pid, uint32_t page, uint32_t holder,
                                       uint32_t from, uint32_t *found);

/* Finds the lowest page from `from` on that a process has mapped and that is dirty. It changes nothing of the core, and
 * looks up each mapped page from there on. False if there is no core, pid is no process's number, or there is no such
 * page; then nothing is written. */
TOWER_NODISCARD bool tower_next_dirty(const struct tower *tower, uint32_t pid, uint32_t from, uint32_t *page);

/* Copies bytes of a process's memory out as they are, up to the first that is not mapped. `moved` becomes the number of
 * bytes copied; the other bytes are unchanged. It changes nothing of the core: no page is mapped, and no flag is set. If
 * pid is no process's number, no byte is copied. False if the handle has no core; then nothing is written. */
TOWER_NODISCARD bool tower_peek(const struct tower *tower, uint32_t pid, uint32_t address, uint8_t *bytes,
                                size_t byte_count, size_t *moved);

/* Puts bytes into a process's memory from an address on, whatever right the process has there: all of them, or none. A
 * page that is not mapped is mapped, and one that may not be written to gets that right for the time. Each page is left
 * with the right that `write` says. It is a run of the process's own events, Map, Protect and Store. `told` becomes
 * TOWER_DONE. Then a kernel whose processors cache translations invalidates those of the process's pages from the first
 * byte's page to the last byte's, before the next access or event.
 *
 * `told` becomes TOWER_REFUSED with the first of these causes: TOWER_NO_PROCESS; TOWER_BAD_PAGE if a page is not of the
 * user range; TOWER_RIGHTS if a page is mapped and the process may never write to it; TOWER_OVER_QUOTA if the process has
 * no room for the pages that are not mapped. It becomes TOWER_NO_EVENT if pid is no process's number. Then nothing else
 * changes. If the process has one page at two of the addresses, the byte that comes last stays.
 *
 * False if the handle has no core; then nothing is written. */
TOWER_NODISCARD bool tower_load_bytes(struct tower *tower, uint32_t pid, uint32_t address, const uint8_t *bytes,
                                      size_t byte_count, bool write, struct tower_reply *told);

/* Clears accessed and dirty of a mapped page, and reports whether it was dirty. It is no event: an Info of the page shows
 * it, and a log of events doesn't have it. A kernel whose processors cache translations invalidates the page's before
 * the next access or event. False if there is no core, pid is no process's number, or the process has not mapped the
 * page; then nothing changes, and nothing is written. */
TOWER_NODISCARD bool tower_clean(struct tower *tower, uint32_t pid, uint32_t page, bool *dirty);

/* Ends a process with all that descend from it, children first: it is the run of their Exits. `exited` lists them in that
 * order. A kernel whose processors cache translations invalidates all of each of these processes before the next access
 * or event. `told` becomes TOWER_DONE. It becomes TOWER_REFUSED with TOWER_ROOT_EXIT for process 0 and with
 * TOWER_NO_PROCESS for a process that is not live, and TOWER_NO_EVENT if pid is no process's number; then nothing
 * changes, and `exited` stays. False if the handle has no core; then nothing is written. */
TOWER_NODISCARD bool tower_end(struct tower *tower, uint32_t pid, struct tower_processes *exited,
                               struct tower_reply *told);

/* Takes a page of a process back from all others that share it: it is the run of the Unmaps of their pages. `lost` gets
 * the pages that were unmapped, in that order, and `count` becomes their number; the other places are unchanged. A kernel
 * whose processors cache translations invalidates those of these pages before the next access or event. If `count` is
 * less than lost_count, the process has the page alone. Otherwise others may still have it, so call again. `told` becomes
 * TOWER_DONE. It becomes TOWER_REFUSED with the cause for which an Info of the page is refused, and TOWER_NO_EVENT if pid
 * is no process's number; then nothing changes, and `count` becomes 0. False if the handle has no core; then nothing is
 * written. */
TOWER_NODISCARD bool tower_take_back(struct tower *tower, uint32_t pid, uint32_t page, struct tower_holder *lost,
                                     size_t lost_count, size_t *count, struct tower_reply *told);

/* Where the core's memory lies, from the boot until tower_free: frame f is the 4,096 bytes from place
 * 4,096 f on. It begins where rattle_alloc put the block. Between two calls only a processor that walks the
 * core's directories may write there, as docs/C-LIBRARY.md says. False if the handle has no core; then
 * nothing is written. */
struct tower_memory {
    void *begins;
    size_t length;
};
TOWER_NODISCARD bool tower_memory(const struct tower *tower, struct tower_memory *memory);

/* Frees the core, if the handle has one. The handle may be booted again. */
void tower_free(struct tower *tower);

/* How an event ended. */
enum tower_outcome {
    TOWER_OUTCOME_DONE = 0,      /* it was carried out, and the reply has what the call returns */
    TOWER_OUTCOME_REFUSED = 1,   /* the reply has the cause */
    TOWER_OUTCOME_FAULT = 2,     /* the reply has the address and the code */
    TOWER_OUTCOME_NO_EVENT = 3,  /* the numbers are no event */
    TOWER_OUTCOME_NO_CORE = 4,   /* the handle has no core, and no reply was written */
};

/* The name of an outcome; "" for a number that is no outcome. */
static inline const char *tower_outcome_name(uint32_t outcome) {
    switch (outcome) {
    case TOWER_OUTCOME_DONE: return "Done";
    case TOWER_OUTCOME_REFUSED: return "Refused";
    case TOWER_OUTCOME_FAULT: return "Fault";
    case TOWER_OUTCOME_NO_EVENT: return "NoEvent";
    case TOWER_OUTCOME_NO_CORE: return "NoCore";
    default: return "";
    }
}

/* How the event ended that has this reply. A kind that is none is TOWER_OUTCOME_NO_EVENT: no call wrote the reply. */
TOWER_NODISCARD static inline enum tower_outcome tower_outcome_of(const struct tower_reply *reply) {
    switch (reply->kind) {
    case TOWER_DONE:
    case TOWER_VALUE:
    case TOWER_CHILD:
    case TOWER_FLAGS:
    case TOWER_USAGE: return TOWER_OUTCOME_DONE;
    case TOWER_REFUSED: return TOWER_OUTCOME_REFUSED;
    case TOWER_FAULT: return TOWER_OUTCOME_FAULT;
    default: return TOWER_OUTCOME_NO_EVENT;
    }
}

/* Carries out one event, as tower_step does, and returns how it ended. `reply` may be NULL. */
TOWER_NODISCARD static inline enum tower_outcome tower_do(struct tower *tower, struct tower_event event,
                                                          struct tower_reply *reply) {
    struct tower_reply own;
    struct tower_reply *to = reply ? reply : &own;
    return tower_step(tower, &event, to) ? tower_outcome_of(to) : TOWER_OUTCOME_NO_CORE;
}

/* Carries out one event, as tower_step_ending does, and returns how it ended. `reply` may be NULL. */
TOWER_NODISCARD static inline enum tower_outcome tower_do_ending(struct tower *tower, struct tower_event event,
                                                                 struct tower_reply *reply,
                                                                 struct tower_ended *ended) {
    struct tower_reply own;
    struct tower_reply *to = reply ? reply : &own;
    return tower_step_ending(tower, &event, to, ended) ? tower_outcome_of(to) : TOWER_OUTCOME_NO_CORE;
}

/* The functions of the archive require pointers that are not null, whatever the count is, and take addresses and pages of
 * 32 bits. A program calls each function below by its own name, without `_inline`. In place of NULL with a count of 0 it
 * passes the address of an object. If an address or a page has more than 32 bits, it passes 255 as the process, which is
 * none: nothing is found or copied, nothing changes, and the reply, if there is one, is TOWER_NO_EVENT. */
TOWER_NODISCARD static inline bool tower_run_inline(struct tower *tower, const struct tower_event *events,
                                                    size_t event_count, struct tower_reply *replies,
                                                    size_t reply_count) {
    const struct tower_event event = {0, 0, 0, 0, 0, 0, 0};
    struct tower_reply reply = {0, 0, 0, 0, false, false, false, false};
    return tower_run(tower, event_count || events ? events : &event, event_count,
                     reply_count || replies ? replies : &reply, reply_count);
}

TOWER_NODISCARD static inline bool tower_run_until_inline(struct tower *tower, const struct tower_event *events,
                                                          size_t event_count, struct tower_reply *replies,
                                                          size_t reply_count, size_t *carried) {
    const struct tower_event event = {0, 0, 0, 0, 0, 0, 0};
    struct tower_reply reply = {0, 0, 0, 0, false, false, false, false};
    return tower_run_until(tower, event_count || events ? events : &event, event_count,
                           reply_count || replies ? replies : &reply, reply_count, carried);
}

TOWER_NODISCARD static inline bool tower_read_inline(struct tower *tower, uint32_t pid, uint64_t address,
                                                     uint8_t *bytes, size_t byte_count, size_t *moved,
                                                     struct tower_reply *stop) {
    uint8_t byte = 0;
    return tower_read(tower, tower_pid_at(pid, address), (uint32_t)address,
                      byte_count || bytes ? bytes : &byte, byte_count, moved, stop);
}

TOWER_NODISCARD static inline bool tower_write_inline(struct tower *tower, uint32_t pid, uint64_t address,
                                                      const uint8_t *bytes, size_t byte_count, size_t *moved,
                                                      struct tower_reply *stop) {
    const uint8_t byte = 0;
    return tower_write(tower, tower_pid_at(pid, address), (uint32_t)address,
                       byte_count || bytes ? bytes : &byte, byte_count, moved, stop);
}

TOWER_NODISCARD static inline bool tower_load_bytes_inline(struct tower *tower, uint32_t pid, uint64_t address,
                                                           const uint8_t *bytes, size_t byte_count, bool write,
                                                           struct tower_reply *told) {
    const uint8_t byte = 0;
    return tower_load_bytes(tower, tower_pid_at(pid, address), (uint32_t)address,
                            byte_count || bytes ? bytes : &byte, byte_count, write, told);
}

TOWER_NODISCARD static inline bool tower_copy_frame_inline(const struct tower *tower, uint32_t frame, uint8_t *bytes,
                                                           size_t byte_count) {
    uint8_t byte = 0;
    return tower_copy_frame(tower, frame, byte_count || bytes ? bytes : &byte, byte_count);
}

TOWER_NODISCARD static inline bool tower_peek_inline(const struct tower *tower, uint32_t pid, uint64_t address,
                                                     uint8_t *bytes, size_t byte_count, size_t *moved) {
    uint8_t byte = 0;
    return tower_peek(tower, tower_pid_at(pid, address), (uint32_t)address,
                      byte_count || bytes ? bytes : &byte, byte_count, moved);
}

TOWER_NODISCARD static inline bool tower_take_back_inline(struct tower *tower, uint32_t pid, uint64_t page,
                                                          struct tower_holder *lost, size_t lost_count, size_t *count,
                                                          struct tower_reply *told) {
    struct tower_holder holder = {0, 0};
    return tower_take_back(tower, tower_pid_at(pid, page), (uint32_t)page,
                           lost_count || lost ? lost : &holder, lost_count, count, told);
}

TOWER_NODISCARD static inline bool tower_next_page_inline(const struct tower *tower, uint32_t pid, uint64_t from,
                                                          uint32_t *page, struct tower_page *found) {
    return tower_next_page(tower, tower_pid_at(pid, from), (uint32_t)from, page, found);
}

TOWER_NODISCARD static inline bool tower_next_offer_inline(const struct tower *tower, uint32_t pid, uint64_t page,
                                                           uint32_t target, struct tower_offer *offer) {
    return tower_next_offer(tower, tower_pid_at(pid, page), (uint32_t)page, target, offer);
}

TOWER_NODISCARD static inline bool tower_next_holder_inline(const struct tower *tower, uint32_t pid, uint64_t page,
                                                            uint32_t holder, uint64_t from, uint32_t *found) {
    return tower_next_holder(tower, tower_pid_at(pid, page | from), (uint32_t)page, holder, (uint32_t)from, found);
}

TOWER_NODISCARD static inline bool tower_next_dirty_inline(const struct tower *tower, uint32_t pid, uint64_t from,
                                                           uint32_t *page) {
    return tower_next_dirty(tower, tower_pid_at(pid, from), (uint32_t)from, page);
}

TOWER_NODISCARD static inline bool tower_clean_inline(struct tower *tower, uint32_t pid, uint64_t page, bool *dirty) {
    return tower_clean(tower, tower_pid_at(pid, page), (uint32_t)page, dirty);
}

/* The walk at an address of more than 32 bits is that at address 0: both are outside the user range. */
TOWER_NODISCARD static inline bool tower_walk_inline(const struct tower *tower, uint32_t pid, uint64_t address,
                                                     bool write, struct tower_walk *found) {
    return tower_walk(tower, pid, address >> 32 ? 0 : (uint32_t)address, write, found);
}

#define tower_walk(tower, pid, address, write, found) tower_walk_inline(tower, pid, address, write, found)
#define tower_next_page tower_next_page_inline
#define tower_next_offer tower_next_offer_inline
#define tower_next_holder tower_next_holder_inline
#define tower_next_dirty tower_next_dirty_inline
#define tower_clean tower_clean_inline
#define tower_load_bytes tower_load_bytes_inline
#define tower_peek tower_peek_inline
#define tower_take_back tower_take_back_inline
#define tower_run tower_run_inline
#define tower_run_until tower_run_until_inline
#define tower_read tower_read_inline
#define tower_write tower_write_inline
#define tower_copy_frame tower_copy_frame_inline

#ifdef __cplusplus
}
#endif
#endif
