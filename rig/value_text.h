/* A panel's values as `rig show` and `rig diff` have them. */
#ifndef VALUE_TEXT_H
#define VALUE_TEXT_H

#include <stddef.h>
#include <stdint.h>

#include "names.h"

enum { VALUE_TEXT = 32 };               /* room for the longest, "150 (column 15, row 10)" */

/* The text of the setting's value i on the panel of the record, whose field has these values; its length. */
int print_value(char *to, size_t room, const struct setting *setting, unsigned i, const uint8_t *values,
                const uint8_t *record);

/* The value's own name, or the setting's where it goes by that. */
const char *value_name(const struct setting *setting, unsigned i);

/* A group's number, or off. */
void print_group(char to[VALUE_TEXT], uint8_t group);

#endif
