/* Throughput of the proved reader against a plain one in C, on the same texts. */
#include "plain.h"
#include <stdint.h>
#include <stdio.h>
#include <stdlib.h>
#include <string.h>
#include <time.h>

unsigned char ihex_fill(const unsigned char *text, size_t length, unsigned char *image, size_t size);

enum { LIMIT = 1048576, SIZE = 32768, ROUNDS = 15 };

static unsigned char text[LIMIT + 64], image[SIZE], other[SIZE];
static uint64_t seed;

static unsigned char any_byte(void)
{
    seed = seed * 6364136223846793005u + 1442695040888963407u;
    return (unsigned char)(seed >> 56);
}

static size_t put_line(size_t at, unsigned count, unsigned place, unsigned type)
{
    unsigned char bytes[260], sum = 0;
    bytes[0] = (unsigned char)count;
    bytes[1] = (unsigned char)(place >> 8);
    bytes[2] = (unsigned char)place;
    bytes[3] = (unsigned char)type;
    for (unsigned i = 0; i < count; i++)
        bytes[4 + i] = any_byte();
    for (unsigned i = 0; i < count + 4; i++)
        sum += bytes[i];
    bytes[count + 4] = (unsigned char)-sum;
    text[at++] = ':';
    for (unsigned i = 0; i < count + 5; i++)
        at += (size_t)sprintf((char *)text + at, "%02X", bytes[i]);
    text[at++] = '\n';
    return at;
}

/* `count` bytes to a line until the image is full, then lines of no bytes while there is room */
static size_t make(unsigned count, size_t room)
{
    size_t at = 0;
    unsigned place = 0;
    seed = 1;
    while (place + count <= SIZE) {
        at = put_line(at, count, place, 0);
        place += count;
    }
    while (at + 24 <= room)
        at = put_line(at, 0, place, 0);
    return put_line(at, 0, 0, 1);
}

static double now(void)
{
    struct timespec t;
    clock_gettime(CLOCK_MONOTONIC, &t);
    return (double)t.tv_sec + (double)t.tv_nsec * 1e-9;
}

static int proved_fill(const unsigned char *t, size_t n, unsigned char *i, size_t s, struct place *where)
{
    (void)where;
    return ihex_fill(t, n, i, s);
}

typedef int filler(const unsigned char *, size_t, unsigned char *, size_t, struct place *);

/* the best of several rounds, in MB/s */
static double speed(filler *fill, size_t length, unsigned char *into)
{
    struct place where;
    double best = 0;
    size_t times = (size_t)(40 * LIMIT) / length;
    for (int round = 0; round < ROUNDS; round++) {
        double begun = now();
        for (size_t i = 0; i < times; i++)
            if (fill(text, length, into, SIZE, &where) != 0) {
                fprintf(stderr, "the text is refused\n");
                exit(1);
            }
        double rate = (double)(times * length) / (now() - begun) / 1e6;
        if (rate > best)
            best = rate;
    }
    return best;
}

static void compare(const char *name, size_t length)
{
    double plain = speed(plain_fill, length, other), table = speed(table_fill, length, other), proved = speed(proved_fill, length, image);
    if (memcmp(image, other, SIZE) != 0) {
        fprintf(stderr, "the images differ\n");
        exit(1);
    }
    printf("%s (%zu bytes): proved %.0f MB/s, plain C %.0f MB/s (ratio %.2f), C with a table %.0f MB/s (ratio %.2f)\n", name, length, proved, plain, proved / plain, table, proved / table);
}

static int keep(const char *folder, const char *name, size_t length)
{
    char path[4096];
    snprintf(path, sizeof path, "%s/%s", folder, name);
    FILE *f = fopen(path, "wb");
    return f && fwrite(text, 1, length, f) == length && fclose(f) == 0;
}

/* random texts, most of them damaged, through all three readers: the same number, the same image */
static void agree(unsigned rounds)
{
    static unsigned char third[SIZE];
    struct place where;
    unsigned seen[40] = {0};
    for (unsigned round = 0; round < rounds; round++) {
        seed = round;
        size_t length = 0, size = any_byte() % 64;
        unsigned place = 0;
        for (unsigned n = any_byte() % 6; n > 0; n--) {
            place += any_byte() % 8;
            unsigned count = any_byte() % 5;
            length = put_line(length, count, place, any_byte() % 40 ? 0 : any_byte());
            place += any_byte() % 20 ? count : 0;
        }
        if (any_byte() % 20)
            length = put_line(length, 0, 0, 1);
        for (unsigned n = any_byte() % 3; n > 0 && length > 0; n--)
            text[any_byte() * 3u % length] = ":0123456789ABCDEFabcdef\r\n\nxG"[any_byte() % 29];
        int a = plain_fill(text, length, image, size, &where), b = table_fill(text, length, other, size, &where), c = ihex_fill(text, length, third, size);
        if (a != b || a != c || memcmp(image, other, size) != 0 || memcmp(image, third, size) != 0) {
            fprintf(stderr, "round %u: plain %d, table %d, proved %d, or their images differ\n", round, a, b, c);
            exit(1);
        }
        seen[c]++;
    }
    printf("%u random texts, same numbers and images:", rounds);
    for (int i = 0; i < 40; i++)
        if (seen[i])
            printf(" %u of %d,", seen[i], i);
    printf(" 0 being accepted\n");
}

/* with a folder, compares answers too and leaves the texts there */
int main(int argc, char **argv)
{
    const char *folder = argc > 1 ? argv[1] : NULL;
    if (folder)
        agree(1000000);
    size_t length = make(16, 0);
    compare("16 bytes to a line, image full", length);
    if (folder && !keep(folder, "full.hex", length))
        return 1;
    compare("255 bytes to a line, image full", make(255, 0));
    length = make(1, LIMIT);
    compare("1 byte to a line, then none, 1 MiB", length);
    return folder && !keep(folder, "long.hex", length) ? 1 : 0;
}
