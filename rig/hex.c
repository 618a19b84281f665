#include "hex.h"

#include <stdio.h>

const char hex_rule[] = "a burst has two hex digits for each byte, and spaces only between bytes";

static int hex_digit(char c)
{
    return c >= '0' && c <= '9' ? c - '0' : c >= 'A' && c <= 'F' ? c - 'A' + 10 : c >= 'a' && c <= 'f' ? c - 'a' + 10 : -1;
}

enum hex read_hex(const char *text, size_t len, uint8_t *bytes, size_t most, size_t *count, size_t *place)
{
    *count = 0;
    for (size_t at = 0; at < len;) {
        if (text[at] == ' ' || text[at] == '\t' || text[at] == '\r' || text[at] == '\n') {
            at++;
            continue;
        }
        int high = hex_digit(text[at]);
        int low = at + 1 < len ? hex_digit(text[at + 1]) : -1;
        *place = high < 0 || low >= 0 ? at + 1 : at + 2;
        if (high < 0 || low < 0)
            return HEX_WRONG;
        if (*count == most)
            return HEX_TOO_LONG;
        bytes[(*count)++] = (uint8_t)(high << 4 | low);
        at += 2;
    }
    return HEX_GOOD;
}

void print_answer(const uint8_t *answer, size_t len)
{
    if (len == 0)
        putchar('-');
    for (size_t i = 0; i < len; i++)
        printf("%02X", answer[i]);
    putchar('\n');
}
