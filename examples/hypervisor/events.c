#include "cache.h"
#include "compare.h"
#include "machine.h"
#include "probe.h"
#include "translations.h"
#include "trial.h"
#include "walk.h"
#include "wrong.h"

/* Processes that make calls: the root and those after process 1, below LIVE. Process 1 has what the root's quota has
 * over ROOM and a frame, so that the number of frames does not change the trial. */
enum { PROCESSES = 64, LIVE = 7, ROOM = 62 };

/* How many processors in software make the accesses. */
enum { IN_SOFTWARE = 2 };

/* A core, and the book of what the processors over it cache; no processor is over the third core. */
struct machine {
    struct tower *core;
    uint8_t *memory;
    struct translations *kept;
};

/* The processor makes accesses over the tables of the first core. Processors in software, which forget only on orders,
 * make them over those of the second. The third gets each as an event. */
static struct tower second = TOWER_NONE, third = TOWER_NONE;
static struct translations by_processor = {svm_forget_page, svm_forget_all, .most = 0};
static struct translations in_software = {cache_forget_page, cache_forget_all, .most = CACHE_IDENTIFIERS};
static struct machine walked = {.kept = &by_processor}, cached = {.core = &second, .kept = &in_software};
static struct machine mirror = {.core = &third};

static uint32_t calls, alone, mended, faulted, refused, split, early;
static bool has_stub[PROCESSES];

/* Makes an event on one core, and invalidates what it ended. On the processors in software that is what a wrong version
 * takes it for. */
static struct tower_reply on(struct machine *it, uint32_t pid, struct tower_event event) {
    struct tower_reply reply = {0};
    struct tower_ended ended = {0};
    event.pid = (uint8_t)pid;
    need(tower_step_ending(it->core, &event, &reply, &ended), "a core answers");
    if (it->kept) {
        invalidate(it->kept, it == &cached ? taken_for(&event, ended) : ended);
    }
    return reply;
}

static struct tower_reply on_each(uint32_t pid, struct tower_event event) {
    struct tower_reply reply = on(&mirror, pid, event);
    need(same_replies(reply, on(&walked, pid, event)), "the two cores answer a call alike");
    need(same_replies(reply, on(&cached, pid, event)), "a core below what is kept answers a call alike");
    return reply;
}

/* Handles a fault of a processor at a byte of an access, where the walk ends, too. The core gets the access of the byte,
 * which doesn't change. What it ended is invalidated. */
static struct tower_reply mend(struct machine *it, uint32_t pid, uint32_t at, uint32_t code) {
    uint32_t directory = 0;
    bool writes = code & 2;
    need(tower_directory(it->core, pid, &directory), "a process has a directory");
    struct walk walk = walk_of(it->memory, FRAMES, directory, at, writes);
    need(walk.kind == WALK_FAULT && walk.code == code, "a processor faults as the walk does");
    struct tower_event event = {.call = writes ? TOWER_STORE : TOWER_LOAD};
    struct tower_reply reply = {0};
    struct tower_ended ended = {0};
    need(tower_touch(it->core, pid, at, writes, &reply, &ended), "a core answers");
    invalidate(it->kept, it == &cached ? taken_for(&event, ended) : ended);
    bool is_same = reply.first == at && reply.second == code;
    need(reply.kind != TOWER_FAULT || is_same, "a processor faults as the core does");
    return reply;
}

static bool is_end(struct tower_reply reply) {
    return reply.kind == TOWER_FAULT || reply.kind == TOWER_REFUSED;
}

/* Makes an access on the processor; its core handles the faults. */
static struct tower_reply on_processor(uint32_t pid, uint32_t entry, uint32_t address, uint32_t value) {
    uint32_t directory = 0, faults = 0;
    need(tower_directory(walked.core, pid, &directory), "a process has a directory");
    open_probe(directory, entry, address, value);
    uint64_t exit;
    while ((exit = run_probe(identifier_of(walked.kept, pid))) == EXIT_PAGE_FAULT) {
        need(svm_fault_address(probe()) - address < 4 && ++faults <= 2,
             "a fault is the access's own, and no access has more than two");
        struct tower_reply reply = mend(&walked, pid, svm_fault_address(probe()), svm_fault_code(probe()));
        if (is_end(reply)) {
            *(reply.kind == TOWER_FAULT ? &faulted : &refused) += 1;
            return reply;
        }
    }
    need(exit == EXIT_CALL, "an access ends in a call or a fault");
    *(faults ? &mended : &alone) += 1;
    return entry >= STORE4 ? (struct tower_reply){.kind = TOWER_DONE}
                           : (struct tower_reply){.kind = TOWER_VALUE, .first = svm_eax(probe())};
}

/* Makes a load or a store on a processor in software; its core handles the faults. */
static struct tower_reply on_cache(uint32_t pid, uint32_t cpu, struct tower_event event) {
    struct access it = {.cpu = cpu, .is_store = event.call == TOWER_STORE, .size = event.flag, .value = event.second};
    need(tower_directory(cached.core, pid, &it.directory), "a process has a directory");
    for (uint32_t faults = 0;; faults++) {
        it.identifier = identifier_of(cached.kept, pid);
        it.address = event.first;
        struct walk end = cache_access(&it);
        if (end.kind == WALK_FOUND) {
            return it.is_store ? (struct tower_reply){.kind = TOWER_DONE}
                               : (struct tower_reply){.kind = TOWER_VALUE, .first = it.value};
        }
        need(faults < 2, "no access has more than two faults");
        struct tower_reply reply = mend(&cached, pid, it.address, end.code);
        if (is_end(reply)) {
            return reply;
        }
    }
}

static struct tower_reply told(uint32_t pid, uint32_t cpu, struct tower_event event) {
    (void)cpu;
    return on(&mirror, pid, event);
}

/* Makes an access as events, or on a processor in software: one, or for an addition a load and a store of the sum. */
static struct tower_reply in_parts(struct tower_reply (*make)(uint32_t pid, uint32_t cpu, struct tower_event event),
                                   uint32_t pid, uint32_t cpu, uint32_t entry, uint32_t address, uint32_t value) {
    uint8_t size = entry == LOAD1 || entry == STORE1 ? 1 : 4;
    struct tower_event load = {.call = TOWER_LOAD, .flag = size, .first = address};
    struct tower_event store = {.call = TOWER_STORE, .flag = size, .first = address, .second = value};
    if (entry == ADD4) {
        struct tower_reply loaded = make(pid, cpu, load);
        if (loaded.kind != TOWER_VALUE) {
            return loaded;
        }
        store.second += loaded.first;
    }
    return make(pid, cpu, entry >= STORE4 ? store : load);
}

/* Returns whether a load, or a store, of this process completes in a page, whatever its quota. */
static bool is_open(uint32_t pid, uint32_t address, bool is_store) {
    struct tower_reply info = on_each(pid, (struct tower_event){.call = TOWER_INFO, .first = address >> 12});
    return info.kind == TOWER_FLAGS && (!is_store || info.write);
}

static void access_by_all(uint32_t pid, uint32_t entry, uint32_t address, uint32_t value) {
    struct tower_event fetch = {.call = TOWER_LOAD, .flag = 1, .first = STUB_AT};
    uint32_t cpu = random(IN_SOFTWARE);
    /* The processor also fetches the instruction. */
    struct tower_reply fetched = on(&mirror, pid, fetch);
    need(fetched.kind == TOWER_VALUE, "a process has the code");
    need(same_replies(on_cache(pid, cpu, fetch), fetched), "a load by what is kept gives what the event does");
    struct tower_reply expected = in_parts(told, pid, cpu, entry, address, value);
    need(same_replies(on_processor(pid, entry, address, value), expected),
         "the processor's access comes to what the event does");
    need(same_replies(in_parts(on_cache, pid, cpu, entry, address, value), expected),
         "an access by what is kept comes to what the event does");
}

/* Returns a place in a page: once in `times` at its end, otherwise half of the time among the first 16, where other
 * accesses also are. */
static uint32_t random_offset(uint32_t times) {
    return random(times) == 0 ? 4093 + random(3) : random(2) ? random(16) : random(4096);
}

/* Makes an access at any place of a page. One that lies in two pages and does not complete is left out. By then the
 * processor's core has carried out its event for the first page, but the access as one event changes nothing. */
static void access(uint32_t pid, uint32_t page) {
    static const uint32_t entries[] = {LOAD4, LOAD1, STORE4, STORE1, ADD4};
    uint32_t entry = entries[random(5)], value = random(0xffffffff);
    bool is_store = entry >= STORE4, is_byte = entry == LOAD1 || entry == STORE1;
    uint32_t offset = random_offset(4);
    if (!is_byte && (entry == ADD4 || (offset < 4093 && random(2)))) {
        offset &= ~3u;
    }
    uint32_t address = page << 12 | offset;
    bool is_split = !is_byte && offset > 4092;
    if (is_split && !(is_open(pid, address, is_store) && is_open(pid, address + 3, is_store))) {
        return;
    }
    split += is_split;
    access_by_all(pid, entry, address, value);
}

/* Checks that the words of a frame agree, except accessed in a directory, which a processor sets as it walks. */
static void compare_words(uint32_t frame, bool is_directory) {
    uint32_t *mine = (uint32_t *)(walked.memory + (size_t)frame * FRAME);
    uint32_t *kept = (uint32_t *)(cached.memory + (size_t)frame * FRAME);
    uint32_t *its = (uint32_t *)(mirror.memory + (size_t)frame * FRAME);
    for (uint32_t i = 0; i < FRAME / 4; i++) {
        if (mine[i] == its[i] && kept[i] == its[i]) {
            continue;
        }
        need(is_directory || mine[i] == its[i], "all of memory agrees");
        need(is_directory || kept[i] == its[i], "all of memory below what is kept agrees");
        need((mine[i] | ACCESSED) == (its[i] | ACCESSED), "a directory agrees, but for accessed");
        need((kept[i] | ACCESSED) == (its[i] | ACCESSED), "a directory below what is kept agrees, but for accessed");
        early += mine[i] != its[i];
        its[i] = mine[i];
    }
}

/* Returns whether a frame is the same in all three memories. */
static bool same_frames(uint32_t frame) {
    const uint64_t *mine = (const uint64_t *)(walked.memory + (size_t)frame * FRAME);
    const uint64_t *kept = (const uint64_t *)(cached.memory + (size_t)frame * FRAME);
    const uint64_t *its = (const uint64_t *)(mirror.memory + (size_t)frame * FRAME);
    uint64_t differ = 0;
    for (uint32_t i = 0; i < FRAME / 8; i++) {
        differ |= (mine[i] ^ its[i]) | (kept[i] ^ its[i]);
    }
    return differ == 0;
}

static void compare_containers(void) {
    for (uint32_t pid = 0; pid < PROCESSES; pid++) {
        struct tower_container a = {0}, b = {0}, c = {0};
        bool is_live = tower_container(mirror.core, pid, &a);
        need(tower_container(walked.core, pid, &b) == is_live && tower_container(cached.core, pid, &c) == is_live &&
                 same_containers(a, b) && same_containers(a, c), "a process's containers agree");
    }
}

/* Compares roles, and the words of directories and tables. With `all`, compares all frames' words, and containers. */
static void compare(bool all) {
    for (uint32_t frame = 0; frame < FRAMES; frame++) {
        struct tower_role role, kept, its;
        need(tower_role(walked.core, frame, &role) && tower_role(cached.core, frame, &kept) &&
                 tower_role(mirror.core, frame, &its), "a frame has a role");
        need(same_roles(role, its) && same_roles(kept, its), "a frame's roles agree");
        bool is_directory = role.kind == TOWER_FRAME_DIRECTORY;
        if ((all || is_directory || role.kind == TOWER_FRAME_TABLE) && !same_frames(frame)) {
            compare_words(frame, is_directory);
        }
    }
    if (all) {
        compare_containers();
    }
}

static uint32_t random_process(void) {
    uint32_t pid = random(LIVE - 1);
    return pid ? pid + 1 : 0;
}

static uint32_t random_page(void) {
    static const uint32_t pages[] = {0x40001, 0x40002, 0x50000, 0x50001, 0x50400, 0x60000, 0xefffe, 0xeffff,
                                     0x3ffff, 0xf0000, 0x00000, 0xfffff};
    return pages[random(random(4) ? 4 : random(8) ? 8 : 12)];
}

/* Makes a child with the page of code: one that was spawned accepts it, a copy has its own. */
static void make_child(uint32_t pid) {
    bool copies = random(2);
    struct tower_event event = {.call = copies ? TOWER_FORK : TOWER_SPAWN,
                                .first = random(8) ? 4 + random(14) : random(3)};
    struct tower_reply child = on_each(pid, event);
    if (child.kind != TOWER_CHILD) {
        return;
    }
    if (child.first >= LIVE) {
        on_each(child.first, (struct tower_event){.call = TOWER_EXIT});
    } else if (copies) {
        has_stub[child.first] = has_stub[pid];
    } else {
        on_each(0, (struct tower_event){.call = TOWER_OFFER, .first = STUB_PAGE, .second = child.first});
        struct tower_event accept = {.call = TOWER_ACCEPT, .first = STUB_PAGE, .third = STUB_PAGE};
        has_stub[child.first] = on_each(child.first, accept).kind == TOWER_DONE;
    }
}

/* Unmaps a page and loads from it, without a store: processors may then cache frame 0 for it. */
static void load_anew(uint32_t pid, uint32_t page) {
    if (has_stub[pid] && page != STUB_PAGE) {
        on_each(pid, (struct tower_event){.call = TOWER_UNMAP, .first = page});
        access_by_all(pid, LOAD4, page << 12, 0);
    }
}

/* Makes an access as the kernel for a process, as a loader does: an event of each core, half of them in two pages. */
static void kernels_access(uint32_t pid) {
    uint32_t page = random_page(), offset = random_offset(2);
    if (random(2)) {
        load_anew(pid, page);
        load_anew(pid, page + 1);
    }
    on_each(pid, (struct tower_event){.call = random(3) ? TOWER_STORE : TOWER_LOAD, .flag = 4,
                                      .first = page << 12 | offset, .second = random(0xffffffff)});
}

/* Writes into a process's memory on one core, and invalidates what that made stale. On the processors in software a
 * wrong version invalidates nothing. Returns how many bytes were written, and what stopped the write. */
static size_t write_on(struct machine *it, uint32_t pid, uint32_t address, const uint8_t *bytes, uint32_t count,
                       struct tower_reply *stop) {
    size_t moved = 0;
    need(tower_write(it->core, pid, address, bytes, count, &moved, stop), "a core answers");
    if (it != &cached || wrong != WRONG_WRITE) {
        invalidate_written(it->kept, pid, address, count);
    }
    return moved;
}

/* Writes up to 32 bytes as the kernel, half of them in two pages. The third core gets a store of each byte. */
static void kernels_write(uint32_t pid) {
    uint8_t bytes[32];
    uint32_t page = random_page(), address = page << 12 | random_offset(2);
    uint32_t count = 1 + random(sizeof bytes), stored = 0;
    struct tower_reply expected = {.kind = TOWER_DONE}, stop = {0};
    load_anew(pid, page);
    load_anew(pid, page + 1);
    for (uint32_t i = 0; i < count; i++) {
        bytes[i] = (uint8_t)random(256);
    }
    while (stored < count && expected.kind == TOWER_DONE) {
        expected = on(&mirror, pid, tower_store(pid, address + stored, 1, bytes[stored]));
        stored += expected.kind == TOWER_DONE;
    }
    need(write_on(&walked, pid, address, bytes, count, &stop) == stored && same_replies(stop, expected),
         "a write ends where stores of its bytes do");
    need(write_on(&cached, pid, address, bytes, count, &stop) == stored && same_replies(stop, expected),
         "a write below what is kept ends where stores of its bytes do");
}

/* The last offer, which is accepted more often than others; its page may have been only loaded. */
static struct {
    uint32_t giver, page, target;
} offered;

/* Accepts the last offer. The target then stores into the page, and its giver loads there, which may have cached the
 * page before. */
static void accept_offered(void) {
    uint32_t own = random_page(), giver = offered.giver, target = offered.target;
    on_each(target, tower_unmap(target, own));
    struct tower_reply reply = on_each(target, tower_accept(target, giver, offered.page, own));
    if (reply.kind == TOWER_DONE && has_stub[target] && has_stub[giver]) {
        access_by_all(target, STORE4, own << 12, random(0xffffffff));
        access_by_all(giver, LOAD4, offered.page << 12, 0);
    }
}

static void plain_call(uint32_t pid, uint8_t call) {
    struct tower_event event = {.call = call, .flag = (uint8_t)random(2), .first = random_page(),
                                .second = random_process()};
    event.third = random_page();
    if (call == TOWER_OFFER && random(2)) {
        load_anew(pid, event.first);
    }
    if (on_each(pid, event).kind != TOWER_DONE) {
        return;
    }
    has_stub[pid] = has_stub[pid] && call != TOWER_EXIT;
    if (call == TOWER_OFFER) {
        offered.giver = pid;
        offered.page = event.first;
        offered.target = event.second;
        if (random(2)) {
            accept_offered();
        }
    }
}

static void other_call(uint32_t pid) {
    enum { PLAIN = 13 };
    static const uint8_t asked[PLAIN] = {TOWER_MAP, TOWER_UNMAP, TOWER_UNMAP, TOWER_PROTECT, TOWER_PROTECT, TOWER_INFO,
                                         TOWER_OFFER, TOWER_OFFER, TOWER_WITHDRAW, TOWER_ACCEPT, TOWER_ACCEPT,
                                         TOWER_QUOTA, TOWER_EXIT};
    uint32_t nth = random(PLAIN + 6);
    calls++;
    if (nth < PLAIN) {
        plain_call(pid, asked[nth]);
    } else if (nth == PLAIN) {
        accept_offered();
    } else if (nth < PLAIN + 3) {
        kernels_access(pid);
    } else if (nth == PLAIN + 3) {
        kernels_write(pid);
    } else {
        make_child(random(2) ? 0 : pid);
    }
}

static void begin_machine(struct machine *it) {
    boot(it->core);
    it->memory = memory_of(it->core);
}

static void begin_cores(struct tower *tower) {
    walked.core = tower;
    begin_machine(&walked);
    begin_machine(&cached);
    begin_machine(&mirror);
    need(walked.memory != mirror.memory && cached.memory != mirror.memory && walked.memory != cached.memory,
         "they have their own memories");
    svm_memory(walked.memory, FRAMES, false);
    by_processor.most = svm_most_identifiers();
    cache_open(cached.memory);
    need(on_each(0, (struct tower_event){.call = TOWER_SPAWN, .first = FRAMES - 1 - ROOM}).kind == TOWER_CHILD,
         "process 1 has the rest");
    for (uint32_t i = 0; i < (uint32_t)(stub_end - stub); i++) {
        on_each(0, (struct tower_event){.call = TOWER_STORE, .flag = 1, .first = STUB_AT + i, .second = stub[i]});
    }
    on_each(0, (struct tower_event){.call = TOWER_PROTECT, .first = STUB_PAGE});
    has_stub[0] = true;
}

static void tell(uint32_t runs) {
    uint32_t kept, walks, again;
    cache_counts(&kept, &walks, &again);
    say("events: %u calls; accesses: %u by the processor alone, %u mended by the core, %u faults, %u refused; %u of them "
        "in two pages; %u directory words marked early\n", calls, alone, mended, faulted, refused, split, early);
    say("translations: %u pages invalidated, %u identifiers given up, %u flushes of all; at each run it would be %u\n",
        by_processor.pages, by_processor.spaces, by_processor.all, runs);
    say("processors in software: %u pages by what they kept, %u by a walk, %u of these behind a refusal; %u pages "
        "invalidated, %u identifiers given up, %u flushes of all\n", kept, walks, again, in_software.pages,
        in_software.spaces, in_software.all);
}

void try_events(uint32_t rounds, struct tower *tower) {
    uint32_t before = (uint32_t)svm_runs();
    begin_cores(tower);
    for (uint32_t round = 0; round < rounds; round++) {
        uint32_t pid = random_process();
        if (!has_stub[pid] && random(4)) {
            pid = 0;
        }
        if (has_stub[pid] && random(4)) {
            access(pid, random(32) ? random_page() : STUB_PAGE);
        } else {
            other_call(pid);
        }
        compare(round % 16 == 0);
    }
    compare(true);
    tell((uint32_t)svm_runs() - before);
}
