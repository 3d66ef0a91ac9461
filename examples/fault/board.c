/* A board of eight cells, a to h. A line like `c=5` puts a character into a cell, and a line `show` writes the cells. */
#include "arnold.h"

struct board {
    char cells[8];
    char *line;
};

static char line[9];
static struct board board = {"........", line};

static void show(void)
{
    for (size_t i = 0; i < sizeof board.cells; i++)
        board.line[i] = board.cells[i];
    board.line[8] = '\n';
    write(CONSOLE_OUT, board.line, 9);
}

int main(void)
{
    char text[16];
    for (;;) {
        int64_t len = read(CONSOLE_IN, text, sizeof text);
        if (len < 3)
            return 0;
        if (text[1] == '=')
            board.cells[text[0] - 'a'] = text[2];
        else
            show();
    }
}
