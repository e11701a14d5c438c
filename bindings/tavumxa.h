/* The lost property box as a static library: see bindings/README.md. */
#ifndef TAVUMXA_H
#define TAVUMXA_H

#include <stdbool.h>
#include <stddef.h>
#include <stdint.h>

/* How many bytes the buffer for the answers to an input must have: 30 for each line that is ended, and 30 more. */
size_t tavumxa_room_for(const uint8_t *input, size_t input_length);

/* Plays an input (a roster and call lines, as docs/BOX.md has them) at a new box and writes the answers, a line for each call line.
 * True where `out` has the room: `*size` is then the length of the answers, and the bytes after them are untouched.
 * False otherwise: nothing is written. Of an input of more than 65,536 bytes the first 65,536 count.
 * The three regions must not overlap, and no pointer may be null, a length of 0 apart. */
bool tavumxa_respond(const uint8_t *input, size_t input_length, uint8_t *out, size_t out_length, size_t *size);

#endif
