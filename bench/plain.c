/* Reads whole frames of a stream into one place, each after a FRAME line without tags, and writes them again:
   what the kernel asks for reading and writing, and no work on the picture. Its word is the bytes of a frame. */
#include <stdio.h>
#include <stdlib.h>
#include <unistd.h>

static size_t fill(char *at, size_t len)
{
    size_t done = 0;
    ssize_t more;
    while (done < len && (more = read(0, at + done, len - done)) > 0)
        done += more;
    return done;
}

static void put(const char *at, size_t len)
{
    size_t done = 0;
    while (done < len) {
        ssize_t more = write(1, at + done, len - done);
        if (more <= 0)
            exit(1);
        done += more;
    }
}

int main(int count, char **words)
{
    size_t len = count == 2 ? 6 + strtoul(words[1], NULL, 10) : 0;
    char *frame = malloc(len), byte;
    if (len <= 6 || !frame)
        return 2;
    do {
        if (fill(&byte, 1) != 1)
            return 1;
        put(&byte, 1);
    } while (byte != '\n');
    size_t got;
    while ((got = fill(frame, len)) == len)
        put(frame, len);
    return got != 0;
}
