/* Mahutore, for programs in C: the text of a hearings file.
 *
 * Link with libhearings_c.a, which tools/build-c.sh makes. The archive wants nothing but memcpy, memmove and memset: no heap, no files.
 * docs/hearings.md says what a hearings file is, and what its text. */
#ifndef MAHUTORE_H
#define MAHUTORE_H

#include <stddef.h>
#include <stdint.h>

#ifdef __cplusplus
extern "C" {
#endif

/* The bytes of the longest file that is read. The text of a longer one is the line "refused 13 at 65536" and nothing else, so a reader
 * may stop at one byte more. */
#define MAHUTORE_LONGEST_FILE 65536

/* Prints the text of the file into the buffer, and answers how many bytes the text has.
 *
 *   file, file_size      the hearings file, of any length
 *   buffer, buffer_size  memory for the text, of any length
 *
 * Where the answer is at most buffer_size, the buffer holds the text and then zeros. There is no zero after a text that fills it.
 * Where the answer is larger, the text does not fit: all of the buffer is zero, and the answer is the size that would do. So a call
 * with buffer_size 0 asks for the size. Nothing else is written, and no file and no buffer is refused.
 *
 * How large is a text? A record of the file prints one line of at most 80 bytes, or the lines of a list, at most fifteen messages
 * and a head. A file with few lists is well served by 65,536 bytes; where that may not do, ask, or call again with what was answered.
 *
 * What the caller owes:
 *   - file_size bytes at file can be read, buffer_size bytes at buffer can be read and written, both sizes below 2^63. Where a size
 *     is 0 its pointer may be null.
 *   - The two do not overlap, and nothing else changes the file or touches the buffer during the call.
 *   - 256 KiB of stack. The call was measured to use 160 KiB on the files of examples/hearings, which is no proof.
 *
 * The call keeps nothing from one to the next, so threads may call at once, each with a buffer of its own. It always returns. */
size_t mahutore_report(const uint8_t *file, size_t file_size, uint8_t *buffer, size_t buffer_size);

#ifdef __cplusplus
}
#endif

#endif
