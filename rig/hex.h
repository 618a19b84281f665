/* Bursts and answers as text: two hex digits a byte. */
#ifndef HEX_H
#define HEX_H

#include <stddef.h>
#include <stdint.h>

enum hex { HEX_GOOD, HEX_WRONG, HEX_TOO_LONG };

/* The bytes of a text, with or without blanks between them, and how many there are. bytes has room for as many as may be there,
 * and may be the text's own front. Where it is not hex, or has more than that, *place is where, from 1. */
enum hex read_hex(const char *text, size_t len, uint8_t *bytes, size_t most, size_t *count, size_t *place);

/* What is asked of a text, for a message. */
extern const char hex_rule[];

/* A line of standard output; - is silence. */
void print_answer(const uint8_t *answer, size_t len);

#endif
