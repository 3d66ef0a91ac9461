/* Keeps a note for each of three clients, and gives each its own back once it has the notes of all. */
#include "arnold.h"

enum { PORT = 7, CLIENTS = 3, ROOM = 32 };

struct note {
    char text[ROOM];
};

struct client {
    int64_t connection;
    struct note *note;
    int64_t len;
};

/* The rooms are used in turn. */
static struct note rooms[2];
static int next_room;

static struct client clients[CLIENTS];

static struct note *room_for_note(void)
{
    struct note *room = &rooms[next_room];
    next_room ^= 1;
    return room;
}

static void start_client(const char *name)
{
    if (fork() == 0) {
        exec("client", 6, name, strlen(name));
        exit(1);
    }
}

int main(void)
{
    uint8_t status;
    int64_t port = listen(PORT);
    start_client("ann");
    start_client("bob");
    start_client("cid");
    for (int i = 0; i < CLIENTS; i++) {
        clients[i].connection = accept(port);
        clients[i].note = room_for_note();
        clients[i].len = read(clients[i].connection, clients[i].note, ROOM);
    }
    for (int i = 0; i < CLIENTS; i++)
        write(clients[i].connection, clients[i].note, (size_t)clients[i].len);
    for (int i = 0; i < CLIENTS; i++)
        wait(&status);
    return 0;
}
