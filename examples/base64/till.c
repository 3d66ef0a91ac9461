/* A till. It takes its settings from a file: three characters for the shop, and a key of eight. For each sale, which is a line
   that is typed, it writes a report: the state of the till in characters that can be sent everywhere. */
#include "arnold.h"

struct till {
    uint8_t sales;
    char shop[3];
    char key[8];
};

static struct till till;

static const char characters[64] = "ABCDEFGHIJKLMNOPQRSTUVWXYZabcdefghijklmnopqrstuvwxyz0123456789+/";

/* Makes four characters of every three bytes. */
static size_t encode(char *line, const void *bytes, size_t len)
{
    const uint8_t *b = bytes;
    size_t put = 0;
    for (size_t i = 0; i + 3 <= len; i += 3) {
        line[put++] = characters[b[i] >> 2];
        line[put++] = characters[(b[i] & 3) << 4 | b[i + 1] >> 4];
        line[put++] = characters[(b[i + 1] & 15) << 2 | b[i + 2] >> 6];
        line[put++] = characters[b[i + 2] & 63];
    }
    return put;
}

int main(void)
{
    char text[64], line[64];
    int64_t settings = open("settings", 8, OPEN_THERE);
    read(settings, till.shop, sizeof till.shop + sizeof till.key);
    while (read(CONSOLE_IN, text, sizeof text) > 0) {
        till.sales++;
        size_t len = encode(line, &till, sizeof till);
        line[len++] = '\n';
        write(CONSOLE_OUT, line, len);
    }
    return 0;
}
