#define _GNU_SOURCE
#include "channel.h"

#include <linux/futex.h>
#include <string.h>
#include <sys/socket.h>
#include <sys/syscall.h>
#include <unistd.h>

void channel_pass(struct channel *it, uint32_t to) {
    if (atomic_exchange(&it->holder, to) & WAITED) {
        syscall(SYS_futex, &it->holder, FUTEX_WAKE, 1, NULL, NULL, 0);
    }
}

static bool is_held(struct channel *it, uint32_t holder) {
    return (atomic_load(&it->holder) & ~(uint32_t)WAITED) == holder;
}

/* It looks more often if that helped the last time, and less often if the other didn't run. */
bool channel_await(struct channel *it, uint32_t holder, uint32_t *looks, const struct timespec *most) {
    enum { FEW = 64, MORE = 256, MOST = 4000 };
    uint32_t now;
    for (uint32_t i = 0; i < *looks; i++) {
        if (is_held(it, holder)) {
            *looks = *looks + MORE < MOST ? *looks + MORE : MOST;
            return true;
        }
        __builtin_ia32_pause();
    }
    *looks = *looks / 2 > FEW ? *looks / 2 : FEW;
    now = atomic_load(&it->holder);
    if ((now & ~(uint32_t)WAITED) != holder && atomic_compare_exchange_strong(&it->holder, &now, now | WAITED)) {
        syscall(SYS_futex, &it->holder, FUTEX_WAIT, now | WAITED, most, NULL, 0);
    }
    return is_held(it, holder);
}

/* ---- Descriptors */

union control {
    struct cmsghdr header;
    char bytes[CMSG_SPACE(sizeof(int))];
};

bool file_send(int socket, int file) {
    union control control = {.header = {CMSG_LEN(sizeof file), SOL_SOCKET, SCM_RIGHTS}};
    struct iovec one = {"", 1};
    struct msghdr message = {.msg_iov = &one, .msg_iovlen = 1, .msg_control = &control, .msg_controllen = sizeof control};
    memcpy(CMSG_DATA(&control.header), &file, sizeof file);
    return sendmsg(socket, &message, MSG_DONTWAIT | MSG_NOSIGNAL) == 1;
}

int file_take(int socket) {
    union control control;
    char nothing;
    int file = -1;
    struct iovec one = {&nothing, 1};
    struct msghdr message = {.msg_iov = &one, .msg_iovlen = 1, .msg_control = &control, .msg_controllen = sizeof control};
    if (recvmsg(socket, &message, 0) == 1 && message.msg_controllen >= CMSG_LEN(sizeof file)) {
        memcpy(&file, CMSG_DATA(&control.header), sizeof file);
    }
    return file;
}
