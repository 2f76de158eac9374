#include "plain.h"
#include <string.h>

#ifdef TABLE
#define FILL table_fill
static signed char values[256];

__attribute__((constructor)) static void make_values(void)
{
    memset(values, -1, sizeof values);
    for (int i = 0; i < 10; i++)
        values['0' + i] = (signed char)i;
    for (int i = 0; i < 6; i++)
        values['A' + i] = values['a' + i] = (signed char)(10 + i);
}

static int digit(unsigned char c)
{
    return values[c];
}
#else
#define FILL plain_fill
static int digit(unsigned char c)
{
    if (c >= '0' && c <= '9')
        return c - '0';
    if (c >= 'A' && c <= 'F')
        return c - 'A' + 10;
    if (c >= 'a' && c <= 'f')
        return c - 'a' + 10;
    return -1;
}
#endif

static int refuse(unsigned char *image, size_t size, struct place *where, int number, size_t line, size_t position)
{
    memset(image, 0xff, size);
    where->line = line;
    where->position = position;
    return number;
}

int FILL(const unsigned char *text, size_t length, unsigned char *image, size_t size, struct place *where)
{
    size_t at = 0, line = 0, floor = 0;
    unsigned char bytes[260];

    where->line = where->position = 0;
    if (length > 1048576 || size > 32768)
        return 39;
    memset(image, 0xff, size);
    for (;;) {
        size_t start = at, end, next, digits, i;
        unsigned sum = 0;

        line++;
        if (start == length)
            return refuse(image, size, where, 37, line, start);
        const unsigned char *feed = memchr(text + start, '\n', length - start);
        end = next = length;
        if (feed) {
            end = (size_t)(feed - text);
            next = end + 1;
            if (end > start && text[end - 1] == '\r')
                end--;
        }
        if (start == end || text[start] != ':')
            return refuse(image, size, where, 30, line, start);
        digits = end - start - 1;
        for (i = 0; i + 1 < digits; i += 2) {
            int high = digit(text[start + 1 + i]), low = digit(text[start + 2 + i]);
            if (high < 0)
                return refuse(image, size, where, 31, line, start + 1 + i);
            if (low < 0)
                return refuse(image, size, where, 31, line, start + 2 + i);
            unsigned char byte = (unsigned char)(high * 16 + low);
            if (i / 2 < sizeof bytes)
                bytes[i / 2] = byte;
            sum += byte;
        }
        if (i < digits && digit(text[start + 1 + i]) < 0)
            return refuse(image, size, where, 31, line, start + 1 + i);
        if (digits < 10 || digits != 10 + 2 * (size_t)bytes[0])
            return refuse(image, size, where, 32, line, start);
        if (sum & 0xff)
            return refuse(image, size, where, 33, line, start);
        if (bytes[3] == 1 && bytes[0] == 0) {
            if (next < length)
                return refuse(image, size, where, 38, line + 1, next);
            return 0;
        }
        if (bytes[3] != 0)
            return refuse(image, size, where, 34, line, start);
        size_t place = (size_t)bytes[1] * 256 + bytes[2], count = bytes[0];
        if (place + count > size)
            return refuse(image, size, where, 35, line, start);
        if (place < floor)
            return refuse(image, size, where, 36, line, start);
        memcpy(image + place, bytes + 4, count);
        floor = place + count;
        at = next;
    }
}
