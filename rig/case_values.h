/* Values worth trying: allowed ones, with both ends of each range, and the nearest that are not; and codes. */
#ifndef CASE_VALUES_H
#define CASE_VALUES_H

#include "names.h"
#include "random.h"

/* All values of a setting, allowed for a panel of the profile and the kind. */
void values(struct source *s, unsigned setting, uint8_t profile, uint8_t kind, uint8_t *to);

/* One value, of a video often sharpness or tint, changed to one that is not allowed or, seldom, to any byte. */
void spoil_value(struct source *s, unsigned setting, uint8_t profile, uint8_t *to);

/* The same, and surely not allowed; a tiling for neither kind. */
void put_bad_value(struct source *s, unsigned setting, uint8_t profile, uint8_t *to);

/* One value of a video changed to one that this profile alone allows. */
void put_own_value(struct source *s, uint8_t profile, uint8_t *video);

uint8_t any_profile(struct source *s);
uint8_t other_profile(uint8_t profile);

/* Half the time one near those of the table. */
uint8_t any_code(struct source *s);

#endif
