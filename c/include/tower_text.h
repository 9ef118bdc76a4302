/* Events and replies as the lines of scripts and replies, which docs/MACHINE.md has ("Scripts"). If a program logs each
 * event of a core from its boot on as a line, `tower run` with as many frames runs the log again, and prints the lines
 * of the replies.
 *
 * tower_event_text and tower_reply_text write a text without a line feed, and a 0 after it, into the `size` bytes from
 * `to` on. A text that doesn't fit is cut. Both return the length of the whole text without the 0, as snprintf does.
 * If `size` is 0, `to` may be NULL. Nothing here needs a C library.
 */
#ifndef TOWER_TEXT_H
#define TOWER_TEXT_H

#include "tower.h"

#ifdef __cplusplus
extern "C" {
#endif

/* So many bytes are enough for each of these texts with its 0. */
#define TOWER_TEXT_BYTES 48

/* A text that is being written: `length` is that of all so far, whether it fits or not. */
struct tower_text {
    char *to;
    size_t size;
    size_t length;
};

static inline void tower_put_letter(struct tower_text *text, char letter) {
    if (text->length + 1 < text->size) {
        text->to[text->length] = letter;
    }
    text->length++;
}

static inline void tower_put_letters(struct tower_text *text, const char *letters) {
    for (; *letters; letters++) {
        tower_put_letter(text, *letters);
    }
}

/* A name with its capitals as small letters. */
static inline void tower_put_name(struct tower_text *text, const char *name) {
    for (; *name; name++) {
        tower_put_letter(text, (char)(*name | 0x20));
    }
}

/* A number in base 10 or 16, with zeros in front if it has fewer digits than `digits`. */
static inline void tower_put_digits(struct tower_text *text, uint32_t number, uint32_t base, uint32_t digits) {
    char held[10];
    uint32_t count = 0;
    for (; number != 0 || count < digits; number /= base) {
        held[count++] = "0123456789abcdef"[number % base];
    }
    while (count != 0) {
        tower_put_letter(text, held[--count]);
    }
}

/* A space, and a number as an operand. */
static inline void tower_put_decimal(struct tower_text *text, uint32_t number) {
    tower_put_letter(text, ' ');
    tower_put_digits(text, number, 10, 1);
}

static inline void tower_put_hexadecimal(struct tower_text *text, uint32_t number, uint32_t digits) {
    tower_put_letter(text, ' ');
    tower_put_digits(text, number, 16, digits);
}

static inline void tower_put_right(struct tower_text *text, uint8_t right) {
    tower_put_letters(text, right == TOWER_READ_WRITE ? " rw" : " ro");
}

/* Ends the text, and returns its length. */
static inline size_t tower_end_text(struct tower_text *text) {
    if (text->size != 0) {
        text->to[text->length < text->size ? text->length : text->size - 1] = 0;
    }
    return text->length;
}

/* Returns whether the numbers are an event: whether tower_step replies anything but TOWER_NO_EVENT. */
TOWER_NODISCARD static inline bool tower_is_event(const struct tower_event *event) {
    if (event->pid >= TOWER_PROCESSES) {
        return false;
    }
    switch (event->call) {
    case TOWER_LOAD:
    case TOWER_STORE: return event->flag == 1 || event->flag == 2 || event->flag == 4;
    case TOWER_MAP:
    case TOWER_PROTECT: return event->flag <= TOWER_READ_WRITE;
    case TOWER_OFFER: return event->flag <= TOWER_READ_WRITE && event->second < TOWER_PROCESSES;
    case TOWER_WITHDRAW:
    case TOWER_ACCEPT: return event->second < TOWER_PROCESSES;
    default: return event->call <= TOWER_FORK;
    }
}

/* The operands of an event's call, in the order of a script's line. */
static inline void tower_put_operands(struct tower_text *text, const struct tower_event *event) {
    switch (event->call) {
    case TOWER_LOAD:
        tower_put_hexadecimal(text, event->first, 1);
        tower_put_decimal(text, event->flag);
        break;
    case TOWER_STORE:
        tower_put_hexadecimal(text, event->first, 1);
        tower_put_decimal(text, event->flag);
        tower_put_hexadecimal(text, event->second, 1);
        break;
    case TOWER_MAP:
    case TOWER_PROTECT:
        tower_put_hexadecimal(text, event->first, 1);
        tower_put_right(text, event->flag);
        break;
    case TOWER_UNMAP:
    case TOWER_INFO:
        tower_put_hexadecimal(text, event->first, 1);
        break;
    case TOWER_OFFER:
        tower_put_hexadecimal(text, event->first, 1);
        tower_put_decimal(text, event->second);
        tower_put_right(text, event->flag);
        break;
    case TOWER_WITHDRAW:
        tower_put_hexadecimal(text, event->first, 1);
        tower_put_decimal(text, event->second);
        break;
    case TOWER_ACCEPT:
        tower_put_decimal(text, event->second);
        tower_put_hexadecimal(text, event->first, 1);
        tower_put_hexadecimal(text, event->third, 1);
        break;
    case TOWER_SPAWN:
    case TOWER_FORK:
        tower_put_decimal(text, event->first);
        break;
    default:
        break;
    }
}

/* Writes an event as a line of a script, such as "0 3 store 40000000 4 11223344". If the numbers are no event, the text
 * is empty. A script's line has a CPU of 0 to 7. */
static inline size_t tower_event_text(const struct tower_event *event, char *to, size_t size) {
    struct tower_text text = {to, size, 0};
    if (tower_is_event(event)) {
        tower_put_digits(&text, event->cpu, 10, 1);
        tower_put_decimal(&text, event->pid);
        tower_put_letter(&text, ' ');
        tower_put_name(&text, tower_call_name(event->call));
        tower_put_operands(&text, event);
    }
    return tower_end_text(&text);
}

/* What a reply has, in the order of its line. */
static inline void tower_put_reply(struct tower_text *text, const struct tower_reply *reply) {
    switch (reply->kind) {
    case TOWER_VALUE:
        tower_put_hexadecimal(text, reply->first, 8);
        break;
    case TOWER_CHILD:
        tower_put_decimal(text, reply->first);
        break;
    case TOWER_FLAGS:
        tower_put_decimal(text, reply->write);
        tower_put_decimal(text, reply->may);
        tower_put_decimal(text, reply->accessed);
        tower_put_decimal(text, reply->dirty);
        tower_put_decimal(text, reply->first);
        break;
    case TOWER_USAGE:
        tower_put_decimal(text, reply->first);
        tower_put_decimal(text, reply->second);
        tower_put_decimal(text, reply->third);
        break;
    case TOWER_FAULT:
        tower_put_hexadecimal(text, reply->first, 8);
        tower_put_decimal(text, reply->second);
        break;
    case TOWER_REFUSED:
        tower_put_letter(text, ' ');
        tower_put_letters(text, tower_cause_name(reply->first));
        break;
    default:
        break;
    }
}

/* Writes a reply as `tower run` prints it, such as "value 00000009" or "refused Mapped". If its kind is TOWER_NO_EVENT
 * or none, the text is empty. */
static inline size_t tower_reply_text(const struct tower_reply *reply, char *to, size_t size) {
    struct tower_text text = {to, size, 0};
    if (reply->kind < TOWER_NO_EVENT) {
        tower_put_name(&text, tower_kind_name(reply->kind));
        tower_put_reply(&text, reply);
    }
    return tower_end_text(&text);
}

#ifdef __cplusplus
}
#endif
#endif
