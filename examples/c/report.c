/* Prints the text of the hearings file that is named on the command line.
 *
 * The status is 0 where the text is printed, 1 where the file cannot be read or the text not be written, 2 where no file is named. */
#include <errno.h>
#include <stdbool.h>
#include <stdio.h>
#include <stdlib.h>
#include <string.h>

#include "mahutore.h"

/* One byte more than is read, so that a longer file is seen to be too long. */
static uint8_t file[MAHUTORE_LONGEST_FILE + 1];

static uint8_t buffer[65536];

static bool complain(const char *what, const char *name)
{
    fprintf(stderr, "report: %s %s: %s\n", what, name, strerror(errno));
    return false;
}

/* Reads a file, or as much of it as there is room for. */
static bool read_file(const char *name, size_t *size)
{
    FILE *opened = fopen(name, "rb");
    if (opened == NULL) {
        return complain("cannot open", name);
    }
    *size = fread(file, 1, sizeof file, opened);
    bool read = !ferror(opened) || complain("cannot read", name);
    fclose(opened);
    return read;
}

static bool write_text(const uint8_t *text, size_t length)
{
    return (fwrite(text, 1, length, stdout) == length && fflush(stdout) == 0) || complain("cannot write", "the text");
}

/* A text that the buffer does not hold: the first call has answered its length, and a second has room for it. */
static bool write_long_text(size_t size, size_t length)
{
    uint8_t *room = malloc(length);
    if (room == NULL) {
        return complain("no memory for", "the text");
    }
    mahutore_report(file, size, room, length);
    bool written = write_text(room, length);
    free(room);
    return written;
}

static bool report(size_t size)
{
    size_t length = mahutore_report(file, size, buffer, sizeof buffer);
    return length <= sizeof buffer ? write_text(buffer, length) : write_long_text(size, length);
}

int main(int count, char **words)
{
    if (count != 2) {
        fprintf(stderr, "usage: report FILE\n");
        return 2;
    }
    size_t size = 0;
    return read_file(words[1], &size) && report(size) ? 0 : 1;
}
