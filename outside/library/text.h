/* The fields of a line of text, read and written as outside/second reads and writes them. */
#ifndef TEXT_H
#define TEXT_H

#include <stddef.h>
#include <stdint.h>

/* Cuts the next field off a line, at a space; ends the program where there is none. */
char *field(char **line);

uint64_t decimal(const char *field);

/* Two hex digits for each byte, or '-' for none; the memory is the caller's to free. */
uint8_t *hex_bytes(const char *field, size_t *bytes);

/* Hex words between commas, or '-' for none; the memory is the caller's to free. */
uint64_t *hex_words(const char *field, size_t *words);

void write_bytes(const uint8_t *bytes, size_t length);
void write_words(const uint64_t *words, size_t length);

/* Ends the program, with what is wrong with the line. */
void no_line(const char *what);

#endif
