/* The image of a case. */
#ifndef CASE_IMAGES_H
#define CASE_IMAGES_H

#include "case_records.h"

/* The draft is left as the image's records were before it was put together. */
void make_image(struct source *s, struct test_case *c, struct draft *d);

#endif
