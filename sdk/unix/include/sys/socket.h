/* Sockets with addresses: the machine has none, and each call fails with ENOSYS. <arnold_ports.h> has its ports. */
#ifndef SYS_SOCKET_H
#define SYS_SOCKET_H

#pragma GCC system_header

#include <stdint.h>
#include <sys/types.h>

typedef uint32_t socklen_t;
typedef uint16_t sa_family_t;
struct sockaddr {
    sa_family_t sa_family;
    char sa_data[14];
};
struct sockaddr_storage {
    sa_family_t ss_family;
    char ss_data[126];
};

enum { AF_UNSPEC = 0, AF_UNIX = 1, AF_INET = 2, AF_INET6 = 10 };
enum { SOCK_STREAM = 1, SOCK_DGRAM = 2 };
enum { SOL_SOCKET = 1, SO_REUSEADDR = 2, SOMAXCONN = 8 };
enum { SHUT_RD, SHUT_WR, SHUT_RDWR };
#define PF_UNIX AF_UNIX
#define PF_INET AF_INET
#define PF_INET6 AF_INET6

int socket(int family, int kind, int protocol);
int socketpair(int family, int kind, int protocol, int both[2]);
int bind(int descriptor, const struct sockaddr *address, socklen_t length);
int listen(int descriptor, int most);
int accept(int descriptor, struct sockaddr *address, socklen_t *length);
int connect(int descriptor, const struct sockaddr *address, socklen_t length);
int shutdown(int descriptor, int how);
ssize_t send(int descriptor, const void *bytes, size_t count, int flags);
ssize_t recv(int descriptor, void *bytes, size_t count, int flags);
ssize_t sendto(int descriptor, const void *bytes, size_t count, int flags, const struct sockaddr *to, socklen_t length);
ssize_t recvfrom(int descriptor, void *bytes, size_t count, int flags, struct sockaddr *from, socklen_t *length);
int getsockopt(int descriptor, int level, int name, void *value, socklen_t *length);
int setsockopt(int descriptor, int level, int name, const void *value, socklen_t length);
int getsockname(int descriptor, struct sockaddr *address, socklen_t *length);
int getpeername(int descriptor, struct sockaddr *address, socklen_t *length);

#endif
