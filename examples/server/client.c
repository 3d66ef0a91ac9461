/* Leaves a note with the server, takes it back, and writes it to the console. The argument block names the file that has
   the note. */
#include "arnold.h"

enum { PORT = 7, ROOM = 32 };

int main(const char *name, size_t name_len)
{
    char note[ROOM];
    int64_t file = open(name, name_len, OPEN_THERE);
    int64_t len = read(file, note, ROOM);
    int64_t server = connect(PORT);
    write(server, note, (size_t)len);
    len = read(server, note, ROOM);
    write(CONSOLE_OUT, note, (size_t)len);
    return 0;
}
