#include "output.h"

#include <stdio.h>
#include <string.h>

#include "tenants.h"

/* Returns whether the family may write so many bytes more, which it then has written. */
static bool take(const struct tenant *it, size_t count, size_t lines) {
    struct tenant *family = &tenants[it->family];
    size_t all = family->text + count + lines * strlen(it->name);
    if (all <= MOST_TEXT) {
        family->text = (uint32_t)all;
    }
    return all <= MOST_TEXT;
}

static void end_line(struct tenant *it) {
    printf("[%s] %.*s\n", it->name, (int)it->length, it->line);
    it->length = 0;
}

static void put(struct tenant *it, char letter) {
    if (letter == '\n' || it->length == MOST_LINE) {
        end_line(it);
    }
    if (letter != '\n') {
        it->line[it->length++] = letter >= ' ' && letter <= '~' ? letter : '?';
    }
}

bool output_text(uint32_t pid, const char *text, size_t count) {
    struct tenant *it = &tenants[pid];
    size_t lines = 0;
    for (size_t i = 0; i < count; i++) {
        lines += text[i] == '\n';
    }
    bool is_taken = take(it, count, lines);
    for (size_t i = 0; is_taken && i < count; i++) {
        put(it, text[i]);
    }
    return is_taken;
}

/* Once a family's text is over, only the line of its first tenant. */
void output_line(uint32_t pid, const char *line) {
    struct tenant *it = &tenants[pid];
    if (it->length) {
        end_line(it);
    }
    if (take(it, strlen(line), 1) || it->family == pid) {
        for (; *line; line++) {
            put(it, *line);
        }
        end_line(it);
    }
}
