/* `ioctl` fails with ENOSYS. */
#ifndef SYS_IOCTL_H
#define SYS_IOCTL_H

#pragma GCC system_header

int ioctl(int descriptor, unsigned long request, ...);

#endif
