/* One process that reads two captures, copies each packet twice, into a chunk and out of it, and writes what it copied: a
   floor for `forward`, without rings, threads or a history.

     copy IN0 IN1 OUT0 OUT1     OUT0 gets the packets of IN1, and OUT1 those of IN0; little-endian captures alone */
#include <fcntl.h>
#include <stdint.h>
#include <stdlib.h>
#include <string.h>
#include <sys/stat.h>
#include <unistd.h>

enum { HEADER = 24, RECORD = 16, CHUNK = 4096, FRAMES = 64 };

static char frames[FRAMES][CHUNK];

/* The whole file, and how many bytes it has. */
static char *whole(const char *name, size_t *size)
{
    struct stat told;
    int in = open(name, O_RDONLY);
    if (in < 0 || fstat(in, &told) < 0) exit(1);
    char *text = malloc(told.st_size);
    size_t at = 0;
    while (text && at < (size_t)told.st_size) {
        ssize_t got = read(in, text + at, told.st_size - at);
        if (got <= 0) exit(1);
        at += got;
    }
    close(in);
    *size = at;
    return text;
}

/* Copies each packet of a capture into a chunk and out of it, with its record's header. */
static char *copied(const char *text, size_t size)
{
    char *out = malloc(size);
    if (!out || size < HEADER) exit(1);
    memcpy(out, text, HEADER);
    size_t at = HEADER;
    for (unsigned number = 0; at + RECORD <= size; number++) {
        uint32_t length;
        memcpy(&length, text + at + 8, sizeof length);
        if (length > CHUNK || at + RECORD + length > size) exit(1);
        char *frame = frames[number % FRAMES];
        memcpy(frame, text + at + RECORD, length);
        memcpy(out + at, text + at, RECORD);
        memcpy(out + at + RECORD, frame, length);
        at += RECORD + length;
    }
    return out;
}

int main(int count, char **words)
{
    char *texts[2];
    size_t sizes[2];
    if (count != 5) return 2;
    for (int port = 0; port < 2; port++) texts[port] = whole(words[1 + port], &sizes[port]);
    for (int port = 0; port < 2; port++) texts[port] = copied(texts[port], sizes[port]);
    for (int port = 0; port < 2; port++) {
        int out = open(words[3 + port], O_WRONLY | O_CREAT | O_TRUNC, 0666);
        if (out < 0 || write(out, texts[1 - port], sizes[1 - port]) != (ssize_t)sizes[1 - port]) return 1;
        close(out);
    }
    return 0;
}
