/* log SCRIPT REPLIES: a kernel that logs what its processes do. It makes random calls of every kind. Each goes as a
 * line of a script to one file, and its reply to another. `tower run --frames 256 < SCRIPT` then has to print REPLIES.
 * It ends with status 0 if all goes as expected, and otherwise prints the line of what does not. */
#include <stdio.h>
#include <string.h>

#include "expect.h"
#include "tower_text.h"

enum { FRAMES = 256, EVENTS = 4000, PAGE = TOWER_FIRST_PAGE };

static uint32_t state = 1;

/* Returns a number below `end`. */
static uint32_t random_below(uint32_t end) {
    state = state * 1664525 + 1013904223;
    return (uint32_t)((uint64_t)(state >> 4) * end >> 28);
}

/* Returns a process: one of a few, or a number next to the highest one. */
static uint32_t random_pid(void) {
    return random_below(30) ? random_below(5) : 62 + random_below(4);
}

/* Returns a page: one of a few, or one at an end of the user range or outside. */
static uint32_t random_page(void) {
    static const uint32_t pages[] = {0x40000, 0x40001, 0x40002, 0x50000, 0xeffff, 0xf0000, 0x3ffff, 0};
    return pages[random_below(random_below(8) ? 4 : 8)];
}

static uint32_t random_address(void) {
    return random_page() << 12 | (random_below(4) ? random_below(16) : 4093 + random_below(3));
}

static uint32_t random_size(void) {
    return random_below(30) ? 1u << random_below(3) : random_below(9);
}

static uint32_t random_right(void) {
    return random_below(40) ? random_below(2) : 2;
}

/* Returns one of the thirteen calls. A few have a number that is no event. */
static struct tower_event random_call(uint32_t pid) {
    switch (random_below(18)) {
    case 0: return tower_map(pid, random_page(), random_right());
    case 1: return tower_unmap(pid, random_page());
    case 2: return tower_protect(pid, random_page(), random_right());
    case 3: return tower_info(pid, random_page());
    case 4:
    case 5: return tower_offer(pid, random_page(), random_pid(), random_right());
    case 6: return tower_withdraw(pid, random_page(), random_pid());
    case 7:
    case 8:
    case 9: return tower_accept(pid, random_pid(), random_page(), random_page());
    case 10: return tower_spawn(pid, random_below(40));
    case 11: return tower_fork(pid, random_below(40));
    case 12: return tower_exit(pid);
    case 13: return tower_quota(pid);
    case 14: return tower_store(pid, random_address(), random_size(), random_below(UINT32_MAX));
    default: return tower_load(pid, random_address(), random_size());
    }
}

static struct tower tower = TOWER_NONE;
static FILE *script, *replies;
static bool calls[TOWER_FORK + 1], kinds[TOWER_NO_EVENT + 1], causes[TOWER_TOO_SMALL + 1];

/* Makes an event, and logs it and its reply. Numbers that are no event have no text. */
static void logs(struct tower_event event) {
    char line[TOWER_TEXT_BYTES], told[TOWER_TEXT_BYTES];
    struct tower_reply reply = {0};
    enum tower_outcome outcome = tower_do(&tower, event, &reply);
    size_t length = tower_event_text(&event, line, sizeof line);
    size_t reply_length = tower_reply_text(&reply, told, sizeof told);
    EXPECT(outcome != TOWER_OUTCOME_NO_CORE && tower_outcome_of(&reply) == outcome);
    EXPECT(tower_is_event(&event) == (outcome != TOWER_OUTCOME_NO_EVENT));
    EXPECT(length == strlen(line) && reply_length == strlen(told));
    EXPECT((length != 0) == tower_is_event(&event) && (reply_length != 0) == tower_is_event(&event));
    if (length != 0) {
        fprintf(script, "%s\n", line);
        fprintf(replies, "%s\n", told);
        calls[event.call] = true;
    }
    kinds[reply.kind] = true;
    causes[reply.kind == TOWER_REFUSED ? reply.first : 0] = true;
}

/* Process 0 makes as many children as there are numbers, and offers a page to more of them than it may. */
static void fills(void) {
    logs(tower_map(0, PAGE, TOWER_READ_ONLY));
    for (uint32_t pid = 1; pid <= TOWER_PROCESSES; pid++) {
        logs(tower_spawn(0, pid < 5 ? 30 : 1));
    }
    for (uint32_t pid = 1; pid <= TOWER_OFFERS + 1; pid++) {
        logs(tower_offer(0, PAGE, pid, TOWER_READ_ONLY));
    }
    for (uint32_t pid = 5; pid < TOWER_PROCESSES; pid++) {
        logs(tower_on_cpu((uint8_t)(pid % 8), tower_exit(pid)));
    }
}

static void logs_random_calls(void) {
    for (uint32_t nth = 0; nth < EVENTS; nth++) {
        struct tower_event event = random_call(random_pid());
        logs(tower_on_cpu((uint8_t)random_below(8), event));
    }
}

/* Each call was made, and each kind of reply and each cause came. No cause has the number 3. */
static void has_all(void) {
    for (uint32_t call = 0; call <= TOWER_FORK; call++) {
        EXPECT(calls[call]);
    }
    for (uint32_t kind = 0; kind <= TOWER_NO_EVENT; kind++) {
        EXPECT(kinds[kind]);
    }
    for (uint32_t cause = 1; cause <= TOWER_TOO_SMALL; cause++) {
        EXPECT(causes[cause] == (cause != 3));
    }
}

/* The longest texts, and texts that don't fit. */
static void cuts(void) {
    struct tower_event event = tower_on_cpu(255, tower_accept(63, 63, UINT32_MAX, UINT32_MAX));
    struct tower_reply usage = {.kind = TOWER_USAGE, .first = UINT32_MAX, .second = UINT32_MAX, .third = UINT32_MAX};
    char text[TOWER_TEXT_BYTES] = "unchanged";
    EXPECT(tower_event_text(&event, NULL, 0) == 34 && tower_reply_text(&usage, NULL, 0) == 38);
    EXPECT(tower_event_text(&event, text, 1) == 34 && text[0] == 0 && text[1] == 'n');
    EXPECT(tower_event_text(&event, text, 34) == 34 && strcmp(text, "255 63 accept 63 ffffffff fffffff") == 0);
    EXPECT(tower_event_text(&event, text, 35) == 34 && strcmp(text, "255 63 accept 63 ffffffff ffffffff") == 0);
    EXPECT(tower_reply_text(&usage, text, 9) == 38 && strcmp(text, "quota 42") == 0);
}

/* Of a kind that is none, and of a reply that no call wrote, nothing is said to be done. */
static void has_no_other_outcome(void) {
    for (uint32_t kind = 0; kind <= 300; kind++) {
        const struct tower_reply reply = {.kind = kind < 300 ? kind : UINT32_MAX};
        enum tower_outcome outcome = tower_outcome_of(&reply);
        EXPECT((outcome == TOWER_OUTCOME_DONE) == (kind <= TOWER_USAGE));
        EXPECT((outcome == TOWER_OUTCOME_FAULT) == (kind == TOWER_FAULT));
        EXPECT((outcome == TOWER_OUTCOME_REFUSED) == (kind == TOWER_REFUSED));
        EXPECT((outcome == TOWER_OUTCOME_NO_EVENT) == (kind >= TOWER_NO_EVENT));
    }
}

int main(int count, char **words) {
    EXPECT(count == 3);
    script = fopen(words[1], "w");
    replies = fopen(words[2], "w");
    EXPECT(script && replies && tower_boot(FRAMES, &tower) == TOWER_BOOTED);
    has_no_other_outcome();
    cuts();
    fills();
    logs_random_calls();
    has_all();
    tower_free(&tower);
    EXPECT(fclose(script) == 0 && fclose(replies) == 0);
    return 0;
}
