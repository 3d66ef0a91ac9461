/* Errors of the kernel as errno. */
#include "layer.h"
#include <errno.h>

int unix_fails(int error)
{
    errno = error;
    return -1;
}

int64_t unix_result(int64_t result)
{
    if (result >= 0)
        return result;
    switch (result) {
    case E_NO_SUCH_CALL:
        return unix_fails(ENOSYS);
    case E_PORT_IN_USE:
        return unix_fails(EADDRINUSE);
    case E_REFUSED:
        return unix_fails(ECONNREFUSED);
    default: /* The others have the same numbers. */
        return unix_fails((int)-result);
    }
}
