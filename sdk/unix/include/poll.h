/* `poll` fails with ENOSYS. */
#ifndef POLL_H
#define POLL_H

#pragma GCC system_header

struct pollfd {
    int fd;
    short events, revents;
};
typedef unsigned nfds_t;
enum { POLLIN = 1, POLLPRI = 2, POLLOUT = 4, POLLERR = 8, POLLHUP = 16, POLLNVAL = 32 };

int poll(struct pollfd *descriptors, nfds_t count, int milliseconds);

#endif
