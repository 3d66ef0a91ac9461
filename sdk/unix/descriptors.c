/* Files, pipes and the console. The kernel has no call that says where in a file a description is, or how long the file is:
   this layer keeps the first, and finds the second by seeks. */
#include "layer.h"
#include <arnold_console.h>
#include <errno.h>
#include <fcntl.h>
#include <stdarg.h>
#include <string.h>
#include <sys/stat.h>
#include <unistd.h>

int arnold_end_of_input = 4;

/* Bytes that the console gave and that weren't handed on yet: those from an end of the input on. */
static char held[512];
static size_t held_length;

/* The table */

static struct description *description_of(int descriptor)
{
    if (descriptor < 0 || descriptor >= DESCRIPTORS || unix_table.descriptors[descriptor].place == 0)
        return NULL;
    return &unix_table.descriptions[unix_table.descriptors[descriptor].place - 1];
}

static bool is_a(int descriptor, enum kind kind)
{
    struct description *d = description_of(descriptor);
    return d != NULL && d->kind == kind;
}

static void forget(int descriptor)
{
    struct description *d = description_of(descriptor);
    if (d == NULL)
        return;
    unix_table.descriptors[descriptor] = (struct descriptor){0};
    if (--d->holders == 0)
        d->kind = CLOSED;
}

static void hold(int descriptor, uint8_t place)
{
    forget(descriptor);
    unix_table.descriptors[descriptor] = (struct descriptor){.place = place};
    unix_table.descriptions[place - 1].holders++;
}

/* A descriptor of a new description. */
static void add(int descriptor, enum kind kind, uint8_t flags)
{
    forget(descriptor);
    for (uint8_t i = 0; i < DESCRIPTORS; i++)
        if (unix_table.descriptions[i].holders == 0) {
            unix_table.descriptions[i] = (struct description){.kind = kind, .flags = flags};
            hold(descriptor, i + 1);
            return;
        }
}

void unix_table_at_boot(void)
{
    for (int i = 0; i < 3; i++)
        add(i, CONSOLE, READS | WRITES);
}

void unix_table_unknown(void)
{
    for (int i = 0; i < DESCRIPTORS; i++)
        add(i, OTHER, READS | WRITES);
}

void unix_table_after_fork(bool is_child)
{
    for (int i = 0; i < DESCRIPTORS; i++)
        unix_table.descriptions[i].is_shared = true;
    if (is_child)
        held_length = 0;
}

void unix_table_after_exec(void)
{
    for (int i = 0; i < DESCRIPTORS; i++)
        if (unix_table.descriptors[i].is_closed_by_exec)
            close(i);
}

/* Positions and lengths of files */

static int64_t seek_to(int descriptor, int64_t position)
{
    return arnold_call(CALL_SEEK, descriptor, position, 0, 0);
}

/* How long a file is, of which the first `least` bytes are known to be there. The position is anywhere then, but where the
   file is that long it is as before. */
static int64_t length_from(int descriptor, int64_t least)
{
    int64_t low = least, high = MOST_FILE + 1;
    for (int64_t step = 1; low + step < high; step *= 2) {
        if (seek_to(descriptor, low + step) < 0)
            high = low + step;
        else
            low += step;
    }
    while (high - low > 1) {
        int64_t middle = low + (high - low) / 2;
        if (seek_to(descriptor, middle) < 0)
            high = middle;
        else
            low = middle;
    }
    return low;
}

/* The position of a file's description. Where another process may have moved it, the bytes up to the end are counted. */
static int64_t position_of(int descriptor, struct description *d)
{
    if (!d->is_shared)
        return d->position;
    char bytes[512];
    int64_t rest = 0, got;
    while ((got = arnold_call(CALL_READ, descriptor, (int64_t)bytes, sizeof bytes, 0)) > 0)
        rest += got;
    d->position = length_from(descriptor, rest) - rest;
    seek_to(descriptor, d->position);
    return d->position;
}

static int64_t length_of(int descriptor, struct description *d)
{
    int64_t position = position_of(descriptor, d);
    int64_t length = length_from(descriptor, position);
    seek_to(descriptor, position);
    return length;
}

static void go_to_end(int descriptor, struct description *d)
{
    int64_t known = d->is_shared ? 0 : d->position;
    int64_t length = length_from(descriptor, known);
    if (d->is_shared || length != known)
        seek_to(descriptor, length);
    d->position = length;
}

off_t lseek(int descriptor, off_t offset, int whence)
{
    struct description *d = description_of(descriptor);
    if (d == NULL)
        return unix_fails(EBADF);
    if (d->kind != PLAIN)
        return unix_fails(ESPIPE);
    int64_t from = 0;
    if (whence == SEEK_CUR)
        from = position_of(descriptor, d);
    else if (whence == SEEK_END)
        from = length_of(descriptor, d);
    else if (whence != SEEK_SET)
        return unix_fails(EINVAL);
    int64_t position = unix_result(seek_to(descriptor, from + offset));
    if (position >= 0)
        d->position = position;
    return position;
}

/* Reading and writing */

/* A read of the console. The byte that ends the input ends a read before it; where it comes first the read is one of nothing. */
static int64_t read_console(int descriptor, char *bytes, size_t count)
{
    int64_t got = (int64_t)(count < sizeof held ? count : sizeof held);
    if (held_length == 0) {
        got = arnold_call(CALL_READ, descriptor, (int64_t)bytes, got, 0);
    } else {
        got = (size_t)got < held_length ? got : (int64_t)held_length;
        memcpy(bytes, held, (size_t)got);
        held_length -= (size_t)got;
        memmove(held, held + got, held_length);
    }
    bool has_end = got > 0 && arnold_end_of_input >= 0;
    char *end = has_end ? memchr(bytes, arnold_end_of_input, (size_t)got) : NULL;
    if (end == NULL)
        return got;
    char *kept = end == bytes ? end + 1 : end;
    size_t length = (size_t)(bytes + got - kept);
    memmove(held + length, held, held_length);
    memcpy(held, kept, length);
    held_length += length;
    return end - bytes;
}

ssize_t read(int descriptor, void *bytes, size_t count)
{
    struct description *d = description_of(descriptor);
    if (d != NULL && !(d->flags & READS))
        return unix_fails(EBADF);
    if (count > MOST_TRANSFER)
        count = MOST_TRANSFER;
    if (count > 0 && is_a(descriptor, CONSOLE) && (arnold_end_of_input >= 0 || held_length > 0))
        return unix_result(read_console(descriptor, bytes, count));
    int64_t got = unix_result(arnold_call(CALL_READ, descriptor, (int64_t)bytes, (int64_t)count, 0));
    if (got > 0 && d != NULL)
        d->position += got;
    return got;
}

/* Writes all bytes, by as many calls as that takes. */
ssize_t write(int descriptor, const void *bytes, size_t count)
{
    struct description *d = description_of(descriptor);
    if (d != NULL && !(d->flags & WRITES))
        return unix_fails(EBADF);
    if (is_a(descriptor, PLAIN) && (d->flags & APPENDS))
        go_to_end(descriptor, d);
    size_t done = 0;
    do {
        size_t rest = count - done < MOST_TRANSFER ? count - done : MOST_TRANSFER;
        int64_t gave = arnold_call(CALL_WRITE, descriptor, (int64_t)bytes + (int64_t)done, (int64_t)rest, 0);
        if (gave < 0 && done > 0)
            break;
        if (gave == E_NO_ROOM)
            return unix_fails(EFBIG);
        if (gave < 0)
            return unix_result(gave);
        done += (size_t)gave;
        if (d != NULL)
            d->position += gave;
    } while (done < count);
    return (ssize_t)done;
}

ssize_t pread(int descriptor, void *bytes, size_t count, off_t position)
{
    off_t before = lseek(descriptor, 0, SEEK_CUR);
    if (before < 0 || lseek(descriptor, position, SEEK_SET) < 0)
        return -1;
    ssize_t got = read(descriptor, bytes, count);
    lseek(descriptor, before, SEEK_SET);
    return got;
}

ssize_t pwrite(int descriptor, const void *bytes, size_t count, off_t position)
{
    off_t before = lseek(descriptor, 0, SEEK_CUR);
    if (before < 0 || lseek(descriptor, position, SEEK_SET) < 0)
        return -1;
    ssize_t gave = write(descriptor, bytes, count);
    lseek(descriptor, before, SEEK_SET);
    return gave;
}

/* Opening and closing */

static int check_path(const char *path)
{
    if (*path == 0)
        return unix_fails(ENOENT);
    return strlen(path) > MOST_PATH ? unix_fails(ENAMETOOLONG) : 0;
}

static int64_t call_with_path(int64_t call, const char *path, int64_t mode)
{
    return arnold_call(call, (int64_t)path, (int64_t)strlen(path), mode, 0);
}

/* The kernel opens what is there, or makes what isn't there. A file is emptied by taking its name away. */
static int64_t open_by(const char *path, int flags)
{
    bool is_emptied = (flags & O_TRUNC) && (flags & O_ACCMODE) != O_RDONLY;
    bool is_made = (flags & O_CREAT) != 0;
    if (is_made && (is_emptied || (flags & O_EXCL))) {
        int64_t made = call_with_path(CALL_OPEN, path, OPEN_NEW);
        if (made != E_EXISTS || (flags & O_EXCL))
            return made;
    }
    if (is_emptied) {
        int64_t gone = call_with_path(CALL_UNLINK, path, 0);
        return gone < 0 ? gone : call_with_path(CALL_OPEN, path, OPEN_NEW);
    }
    int64_t found = call_with_path(CALL_OPEN, path, OPEN_THERE);
    return found == E_NO_FILE && is_made ? call_with_path(CALL_OPEN, path, OPEN_NEW) : found;
}

int open(const char *path, int flags, ...)
{
    if (check_path(path) < 0)
        return -1;
    int64_t descriptor = open_by(path, flags);
    if (descriptor == E_NO_ROOM)
        return unix_fails(ENOSPC);
    if (descriptor < 0)
        return (int)unix_result(descriptor);
    int access = flags & O_ACCMODE;
    add((int)descriptor, PLAIN,
        (access != O_WRONLY ? READS : 0) | (access != O_RDONLY ? WRITES : 0) | ((flags & O_APPEND) ? APPENDS : 0));
    unix_table.descriptors[descriptor].is_closed_by_exec = (flags & O_CLOEXEC) != 0;
    return (int)descriptor;
}

int creat(const char *path, mode_t mode)
{
    return open(path, O_WRONLY | O_CREAT | O_TRUNC, mode);
}

int close(int descriptor)
{
    int64_t result = arnold_call(CALL_CLOSE, descriptor, 0, 0, 0);
    if (result == 0)
        forget(descriptor);
    return (int)unix_result(result);
}

int unlink(const char *path)
{
    return check_path(path) < 0 ? -1 : (int)unix_result(call_with_path(CALL_UNLINK, path, 0));
}

/* Copies of descriptors */

static int64_t copy(int descriptor)
{
    int64_t to = arnold_call(CALL_DUP, descriptor, 0, 0, 0);
    if (to >= 0 && description_of(descriptor) != NULL)
        hold((int)to, unix_table.descriptors[descriptor].place);
    return to;
}

int dup(int descriptor)
{
    return (int)unix_result(copy(descriptor));
}

/* A copy of the lowest number from `least` on. The kernel gives the lowest one that is free: those below are taken first. */
static int copy_from(int descriptor, int least)
{
    int64_t to = copy(descriptor);
    if (to < 0 || to >= least)
        return (int)unix_result(to);
    int result = copy_from(descriptor, least);
    close((int)to);
    return result;
}

int dup2(int descriptor, int to)
{
    if (to < 0 || to >= DESCRIPTORS)
        return unix_fails(EBADF);
    int64_t first = copy(descriptor);
    if (first == E_BAD_DESCRIPTOR)
        return unix_fails(EBADF);
    if (first == to)
        return to;
    if (first >= 0)
        close((int)first);
    if (descriptor == to)
        return to;
    arnold_call(CALL_CLOSE, to, 0, 0, 0);
    forget(to);
    return copy_from(descriptor, to);
}

int pipe(int ends[2])
{
    int64_t both = arnold_call(CALL_PIPE, 0, 0, 0, 0);
    if (both == E_NO_ROOM)
        return unix_fails(ENFILE);
    if (both < 0)
        return (int)unix_result(both);
    ends[0] = (int)(both % 256);
    ends[1] = (int)(both / 256);
    add(ends[0], OTHER, READS);
    add(ends[1], OTHER, WRITES);
    return 0;
}

/* A descriptor that the kernel made of something else than a file. */
int unix_other(int64_t descriptor)
{
    if (descriptor >= 0)
        add((int)descriptor, OTHER, READS | WRITES);
    return (int)unix_result(descriptor);
}

static int flags_of(struct description *d)
{
    int access = !(d->flags & WRITES) ? O_RDONLY : !(d->flags & READS) ? O_WRONLY : O_RDWR;
    return access | ((d->flags & APPENDS) ? O_APPEND : 0);
}

int fcntl(int descriptor, int request, ...)
{
    struct description *d = description_of(descriptor);
    if (d == NULL)
        return unix_fails(EBADF);
    va_list more;
    va_start(more, request);
    int word = va_arg(more, int);
    va_end(more);
    switch (request) {
    case F_DUPFD:
        return copy_from(descriptor, word);
    case F_GETFD:
        return unix_table.descriptors[descriptor].is_closed_by_exec ? FD_CLOEXEC : 0;
    case F_SETFD:
        unix_table.descriptors[descriptor].is_closed_by_exec = (word & FD_CLOEXEC) != 0;
        return 0;
    case F_GETFL:
        return flags_of(d);
    case F_SETFL:
        if (word & O_NONBLOCK)
            return unix_fails(ENOSYS);
        d->flags = (uint8_t)((d->flags & ~APPENDS) | ((word & O_APPEND) ? APPENDS : 0));
        return 0;
    default:
        return unix_fails(ENOSYS);
    }
}

/* What files are */

int fstat(int descriptor, struct stat *found)
{
    struct description *d = description_of(descriptor);
    if (d == NULL)
        return unix_fails(EBADF);
    memset(found, 0, sizeof *found);
    found->st_nlink = 1;
    found->st_blksize = 512;
    if (d->kind == PLAIN) {
        found->st_mode = S_IFREG | 0666;
        found->st_size = length_of(descriptor, d);
    } else {
        found->st_mode = (d->kind == CONSOLE ? S_IFCHR : S_IFIFO) | 0666;
    }
    return 0;
}

int stat(const char *path, struct stat *found)
{
    int descriptor = open(path, O_RDONLY);
    if (descriptor < 0)
        return -1;
    int result = fstat(descriptor, found);
    close(descriptor);
    return result;
}

int lstat(const char *path, struct stat *found)
{
    return stat(path, found);
}

int access(const char *path, int mode)
{
    (void)mode;
    int descriptor = open(path, O_RDONLY);
    return descriptor < 0 ? -1 : close(descriptor);
}

int isatty(int descriptor)
{
    if (is_a(descriptor, CONSOLE))
        return 1;
    errno = description_of(descriptor) == NULL ? EBADF : ENOTTY;
    return 0;
}
