/* The input, taken from its front. */
#include <stdio.h>
#include <stdlib.h>
#include <string.h>

#include "doors.h"

_Noreturn void stop(const char *message) {
    fflush(stdout);
    fprintf(stderr, "doors: %s\n", message);
    exit(2);
}

bytes_t standard_input(void) {
    static uint8_t *bytes;
    size_t room = 1 << 20, length = 0;
    do {
        room *= 2;
        bytes = realloc(bytes, room);
        if (bytes == NULL) stop("no memory for the batch");
        length += fread(bytes + length, 1, room - length, stdin);
    } while (length == room);
    if (ferror(stdin)) stop("standard input: a read failed");
    return (bytes_t){bytes, length, 0};
}

bool is_empty(const bytes_t *batch) { return batch->at >= batch->length; }

/* The next byte. */
static uint8_t take_byte(bytes_t *batch) {
    if (is_empty(batch)) stop("the batch ends too early");
    return batch->bytes[batch->at++];
}

static bool ends_word(uint8_t byte) { return byte == ' ' || byte == '\n'; }

uint64_t take_number(bytes_t *batch) {
    uint64_t number = 0;
    uint8_t byte = take_byte(batch);
    do {
        uint64_t digit = (uint64_t)byte - '0';
        if (digit > 9 || number > (UINT64_MAX - digit) / 10) stop("a number was expected");
        number = 10 * number + digit;
        byte = take_byte(batch);
    } while (!ends_word(byte));
    return number;
}

int64_t take_signed(bytes_t *batch) {
    bool minus = !is_empty(batch) && batch->bytes[batch->at] == '-';
    if (minus) batch->at++;
    uint64_t size = take_number(batch);
    if (size > (uint64_t)INT64_MAX + minus) stop("a number is too large");
    if (!minus) return (int64_t)size;
    return size == 0 ? 0 : -(int64_t)(size - 1) - 1;
}

bool take_word(bytes_t *batch, const char *word) {
    size_t length = strlen(word);
    if (batch->length - batch->at <= length || memcmp(batch->bytes + batch->at, word, length) != 0) return false;
    if (!ends_word(batch->bytes[batch->at + length])) return false;
    batch->at += length + 1;
    return true;
}

bytes_t take_bytes(bytes_t *batch, size_t count) {
    if (count > batch->length - batch->at) stop("the batch ends too early");
    bytes_t bytes = {batch->bytes + batch->at, count, 0};
    batch->at += count;
    return bytes;
}
