/* The machine's ports: numbers at which a process listens and to which others connect. What the calls return is a
   descriptor to read from and to write to, or -1 with errno. */
#ifndef ARNOLD_PORTS_H
#define ARNOLD_PORTS_H

#pragma GCC system_header

int port_listen(int port);
int port_connect(int port);
int port_accept(int descriptor);

#endif
