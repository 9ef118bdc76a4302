#include "wrong.h"
#include "machine.h"

enum wrong wrong = RIGHT;

/* Which trials have to find a version: that of events, which one processor makes, the storm, both of these, the
 * shootdowns, or all. */
enum trials { EVENTS, STORM, BOTH, SHOOTDOWNS, ALL };

/* In the order of `enum wrong`. ./wrong reads words and trials here. */
static const struct {
    const char *word;
    enum trials trials;
    const char *what;
} versions[] = {
    {"right", ALL, ""},
    {"unmap", ALL, "nothing is invalidated after an unmap"},
    {"protect", ALL, "nothing is invalidated after a protect that takes the right to write"},
    {"fill", ALL, "nothing is invalidated after a store that fills a lazy page"},
    {"second", EVENTS, "of two pages that a store fills the first alone is invalidated"},
    {"accept", ALL, "after an accept of a lazy page the caller's page is invalidated, and not the giver's"},
    {"exit", ALL, "an exit keeps its process's identifier"},
    {"cpu", EVENTS, "one processor alone is told what to invalidate"},
    {"table", ALL, "the word that leads to an invalidated page's table is kept"},
    {"refusal", EVENTS, "a refusal by what is kept is believed"},
    {"dirty", EVENTS, "a store through what is kept without dirty doesn't mark it"},
    {"early", STORM, "the lock is let go first: a page is invalidated with the next event of who keeps it"},
    {"twice", STORM, "two processors run one process"},
    {"move", STORM, "a process that comes back to a processor finds what this one kept of it"},
    {"fork", STORM, "the other processors run on while a fork copies"},
    {"write", EVENTS, "nothing is invalidated after a write of the kernel's own"},
    {"acknowledge", SHOOTDOWNS, "a processor acknowledges before it invalidates"},
    {"reply", SHOOTDOWNS, "the event comes in the order before all have invalidated"},
    {"frame", SHOOTDOWNS, "a freed frame is given while a processor keeps it"},
    {"give", SHOOTDOWNS, "the others go on while a store fills a lazy page"},
    {"lend", SHOOTDOWNS, "the others go on while a lazy page is accepted"},
    {"told", SHOOTDOWNS, "a caller goes on before its window has closed"},
};

static bool is_same(const char *a, const char *b) {
    while (*a && *a == *b) {
        a++;
        b++;
    }
    return *a == *b;
}

void choose_wrong(const char *word) {
    for (uint32_t i = RIGHT; i < sizeof versions / sizeof *versions; i++) {
        if (is_same(word, versions[i].word)) {
            wrong = (enum wrong)i;
            return;
        }
    }
    say("there is no wrong version %s\n", word);
    leave(2);
}

struct tower_ended taken_for(const struct tower_event *event, struct tower_ended ended) {
    static const struct tower_ended nothing = {.kind = TOWER_ENDS_NOTHING};
    static const enum wrong forgets[] = {[TOWER_STORE] = WRONG_FILL, [TOWER_UNMAP] = WRONG_UNMAP,
                                         [TOWER_PROTECT] = WRONG_PROTECT, [TOWER_EXIT] = WRONG_EXIT,
                                         [TOWER_FORK] = RIGHT};
    if (wrong == RIGHT || ended.kind == TOWER_ENDS_NOTHING) {
        return ended;
    }
    if (wrong == forgets[event->call]) {
        return nothing;
    }
    if (wrong == WRONG_SECOND && ended.kind == TOWER_ENDS_PAGES) {
        ended.kind = TOWER_ENDS_PAGE;
    }
    if (wrong == WRONG_ACCEPT && event->call == TOWER_ACCEPT) {
        ended.pid = event->pid;
        ended.first = event->third;
    }
    return ended;
}
