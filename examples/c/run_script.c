/* run_script FRAMES < SCRIPT: passes each line of a script to tower_do, and prints each reply as a line.
 *
 * docs/MACHINE.md has the lines of scripts and replies. It ends with status 2 at the first line that is no
 * event. This runner is for well-formed scripts, and does not detect all that the program refuses. */
#include <stdio.h>
#include <stdlib.h>
#include <string.h>

#include "tower_text.h"

static const char *const calls[] = {"load",   "store", "map",  "unmap", "protect", "info", "offer", "withdraw",
                                    "accept", "spawn", "exit", "quota", "fork"};

/* The rest of a line, and whether all its words so far were read. */
struct tokens {
    char *rest;
    bool ok;
};

static const char *next_word(struct tokens *line) {
    char *word = line->rest + strspn(line->rest, " ");
    size_t length = strcspn(word, " ");
    line->rest = word + length + (word[length] != 0);
    word[length] = 0;
    line->ok = line->ok && length != 0;
    return word;
}

static uint32_t next_number(struct tokens *line, int base) {
    char *end;
    const char *word = next_word(line);
    unsigned long long number = strtoull(word, &end, base);
    line->ok = line->ok && *end == 0 && number <= UINT32_MAX;
    return (uint32_t)number;
}

static uint8_t next_byte(struct tokens *line) {
    uint32_t number = next_number(line, 10);
    line->ok = line->ok && number <= UINT8_MAX;
    return (uint8_t)number;
}

static uint8_t next_right(struct tokens *line) {
    const char *word = next_word(line);
    bool writes = strcmp(word, "rw") == 0;
    line->ok = line->ok && (writes || strcmp(word, "ro") == 0);
    return writes;
}

static uint8_t next_call(struct tokens *line) {
    const char *word = next_word(line);
    uint8_t call = 0;
    while (call < 13 && strcmp(word, calls[call]) != 0) {
        call++;
    }
    return call;
}

static void take_operands(struct tokens *line, struct tower_event *event) {
    switch (event->call) {
    case TOWER_LOAD:
    case TOWER_STORE:
        event->first = next_number(line, 16);
        event->flag = next_byte(line);
        event->second = event->call == TOWER_STORE ? next_number(line, 16) : 0;
        break;
    case TOWER_MAP:
    case TOWER_PROTECT:
        event->first = next_number(line, 16);
        event->flag = next_right(line);
        break;
    case TOWER_UNMAP:
    case TOWER_INFO:
        event->first = next_number(line, 16);
        break;
    case TOWER_OFFER:
    case TOWER_WITHDRAW:
        event->first = next_number(line, 16);
        event->second = next_number(line, 10);
        event->flag = event->call == TOWER_OFFER ? next_right(line) : 0;
        break;
    case TOWER_ACCEPT:
        event->second = next_number(line, 10);
        event->first = next_number(line, 16);
        event->third = next_number(line, 16);
        break;
    case TOWER_SPAWN:
    case TOWER_FORK:
        event->first = next_number(line, 10);
        break;
    }
}

static bool parsed(char *text, struct tower_event *event) {
    struct tokens line = {text, true};
    memset(event, 0, sizeof *event);
    event->cpu = next_byte(&line);
    event->pid = next_byte(&line);
    event->call = next_call(&line);
    take_operands(&line, event);
    return line.ok && line.rest[strspn(line.rest, " ")] == 0;
}

/* Returns whether the event's own line parses as the same event. */
static bool has_a_line(const struct tower_event *event) {
    char text[TOWER_TEXT_BYTES];
    struct tower_event again;
    bool fits = tower_event_text(event, text, sizeof text) < sizeof text;
    return fits && parsed(text, &again) && memcmp(&again, event, sizeof again) == 0;
}

/* Carries out a line. Returns whether it was carried out, or is one to skip. */
static bool carried_out(struct tower *tower, char *text) {
    struct tower_event event = {0};
    struct tower_reply reply = {0};
    char line[TOWER_TEXT_BYTES];
    if (text[0] == '#' || text[strspn(text, " ")] == 0) {
        return true;
    }
    if (!parsed(text, &event) || !has_a_line(&event) || tower_do(tower, event, &reply) >= TOWER_OUTCOME_NO_EVENT) {
        return false;
    }
    return tower_reply_text(&reply, line, sizeof line) < sizeof line && puts(line) >= 0;
}

int main(int count, char **words) {
    static struct tower tower;
    char text[256];
    int status = 0;
    if (count != 2 || tower_boot((uint32_t)strtoul(words[1], NULL, 10), &tower) != TOWER_BOOTED) {
        fputs("usage: run_script FRAMES < SCRIPT, with 16 to 4096 frames\n", stderr);
        return 1;
    }
    while (status == 0 && fgets(text, sizeof text, stdin)) {
        text[strcspn(text, "\n")] = 0;
        status = carried_out(&tower, text) ? 0 : 2;
    }
    tower_free(&tower);
    return status;
}
