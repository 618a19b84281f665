/* The setup that a command works on: loaded from its file, and kept there. What gives an exit status has said on standard
 * error what was wrong. */
#ifndef SETUP_H
#define SETUP_H

#include "record.h"
#include "setup_file.h"
#include "undivarro.h"

struct setup {
    size_t len;
    uint8_t bytes[UNDIVARRO_IMAGE_CAP];
};

/* Holds the setup at path for this program alone. Where another has it, *held is -1, and *holder its process or 0. */
int hold(const char *path, int *held, pid_t *holder);

/* What follows reads by a descriptor that hold gave or, where it is -1, opens the file at path itself. */

/* The bytes of the file as they are, whatever they hold. */
int load_image(const char *path, int held, uint8_t image[SETUP_FILE_LIMIT + 1], size_t *len);

/* The setup in the file, in form 2 whatever the file has, with all fields of all panels by rising code. *form, if wanted,
 * is the file's. */
int load(const char *path, int held, struct setup *setup, uint8_t *form);

/* In the file that is held. */
int keep(const char *path, int *held, const struct setup *setup);

/* In a new file; one that is there is left alone. */
int keep_new(const char *path, const struct setup *setup);

/* Both in form 2 with all fields, as loaded or played: other bytes are other settings. */
bool same_setup(const struct setup *setup, const struct setup *other);

/* The records of a setup in form 2. */
size_t panel_count(const struct setup *setup);
const uint8_t *record_of(const struct setup *setup, size_t k);

#endif
