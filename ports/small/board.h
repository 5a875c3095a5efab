/* The board that load.c runs on: what brings the file, and what takes the report. */
#ifndef BOARD_H
#define BOARD_H

#include <stddef.h>
#include <stdint.h>

/* The next bytes of the file, up to so many; 0 where it has ended. */
size_t receive(uint8_t *bytes, size_t most);
/* A line of a word, a number, and bytes in hexadecimal. */
void report(const char *word, uint32_t number, const uint8_t *bytes, size_t len);

#endif
