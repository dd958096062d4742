/* Calls mahutore_report with buffers of several sizes, and with null pointers of size 0. The status is 0 where it answers what
 * include/mahutore.h says, and else 1, after a line that names what is wrong. */
#include <stdbool.h>
#include <stdio.h>
#include <string.h>

#include "mahutore.h"

/* The header is chosen, a word is heard in part, and listed. */
static const uint8_t file[] = {1, 2, 2, 0, 1, 2, 1, 3, 2, 2, 5, 2, 3, 7, 4, 4};

static const char text[] = "code 2 family 1 letters 11 places 10 top 10 least 5\nlist 4 1\n1 2 0\n";

enum { LENGTH = sizeof text - 1, ROOM = 200 };

static bool are_zero(const uint8_t *bytes, size_t count)
{
    for (size_t i = 0; i < count; i++) {
        if (bytes[i] != 0) {
            return false;
        }
    }
    return true;
}

/* The call with so much of a buffer: the text and zeros, or zeros alone, and no byte written past what was handed over. */
static bool holds(size_t size)
{
    uint8_t buffer[ROOM];
    memset(buffer, 9, sizeof buffer);
    size_t length = mahutore_report(file, sizeof file, buffer, size);
    size_t held = length <= size ? length : 0;
    bool rest = true;
    for (size_t i = size; i < sizeof buffer; i++) {
        rest = rest && buffer[i] == 9;
    }
    return length == LENGTH && memcmp(buffer, text, held) == 0 && are_zero(buffer + held, size - held) && rest;
}

static bool say(bool holds, const char *what)
{
    if (!holds) {
        fprintf(stderr, "buffers: wrong with %s\n", what);
    }
    return holds;
}

int main(void)
{
    uint8_t buffer[4] = {9, 9, 9, 9};
    bool all = say(holds(ROOM), "a buffer that is larger than the text");
    all = say(holds(LENGTH), "a buffer of the text's size") && all;
    all = say(holds(LENGTH - 1), "a buffer that is one byte short") && all;
    all = say(holds(0), "a buffer of size 0") && all;
    all = say(mahutore_report(file, sizeof file, NULL, 0) == LENGTH, "no buffer") && all;
    all = say(mahutore_report(NULL, 0, buffer, sizeof buffer) == 0 && are_zero(buffer, sizeof buffer), "no file") && all;
    all = say(mahutore_report(NULL, 0, NULL, 0) == 0, "neither") && all;
    return all ? 0 : 1;
}
