#include "text.h"

#include <inttypes.h>
#include <stdio.h>
#include <stdlib.h>
#include <string.h>

#include "lent.h"

void no_line(const char *what) {
    fprintf(stderr, "not a line of problems: %.60s\n", what);
    exit(2);
}

char *field(char **line) {
    char *start = *line;
    size_t length = strcspn(start, " \n");
    if (length == 0) no_line("a field is missing");
    *line = start + length + (start[length] != '\0');
    start[length] = '\0';
    return start;
}

uint64_t decimal(const char *field) {
    char *end;
    uint64_t number = strtoull(field, &end, 10);
    if (*end != '\0') no_line(field);
    return number;
}

static int none(const char *field) {
    return strcmp(field, "-") == 0;
}

static const char digits[] = "0123456789abcdef";

static unsigned digit(char of) {
    const char *found = of == '\0' ? NULL : strchr(digits, of);
    if (found == NULL) no_line("a hex digit is missing");
    return (unsigned)(found - digits);
}

uint8_t *hex_bytes(const char *field, size_t *bytes) {
    *bytes = none(field) ? 0 : strlen(field) / 2;
    uint8_t *read = memory(*bytes);
    for (size_t at = 0; at < *bytes; at++) {
        read[at] = (uint8_t)(16 * digit(field[2 * at]) + digit(field[2 * at + 1]));
    }
    return read;
}

uint64_t *hex_words(const char *field, size_t *words) {
    *words = none(field) ? 0 : 1;
    for (const char *at = field; *at != '\0'; at++) *words += *at == ',';
    uint64_t *read = memory(*words * sizeof *read);
    for (size_t at = 0; at < *words; at++) {
        char *end;
        read[at] = strtoull(field, &end, 16);
        if (end == field || (*end != ',' && *end != '\0')) no_line(field);
        field = end + 1;
    }
    return read;
}

void write_bytes(const uint8_t *bytes, size_t length) {
    if (length == 0) putchar('-');
    for (size_t at = 0; at < length; at++) {
        putchar(digits[bytes[at] / 16]);
        putchar(digits[bytes[at] % 16]);
    }
}

void write_words(const uint64_t *words, size_t length) {
    if (length == 0) putchar('-');
    for (size_t at = 0; at < length; at++) printf(at == 0 ? "%" PRIx64 : ",%" PRIx64, words[at]);
}
