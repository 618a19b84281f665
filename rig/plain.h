/* The library's functions a second time, in plain C: for comparison and as a measure of speed. */
#ifndef PLAIN_H
#define PLAIN_H

#include "undivarro.h"

struct undivarro_result plain_play(const uint8_t *image, size_t image_len,
                                   const uint8_t *burst, size_t burst_len,
                                   uint8_t *answer, size_t answer_cap,
                                   uint8_t *out, size_t out_cap);

struct undivarro_result plain_play_on(uint32_t edition,
                                      const uint8_t *image, size_t image_len,
                                      const uint8_t *burst, size_t burst_len,
                                      uint8_t *answer, size_t answer_cap,
                                      uint8_t *out, size_t out_cap);

struct undivarro_result plain_batch(const uint8_t *image, size_t image_len,
                                    const uint8_t *list, size_t list_len,
                                    uint8_t *answers, size_t answers_cap,
                                    uint8_t *out, size_t out_cap);

struct undivarro_result plain_batch_on(uint32_t edition,
                                       const uint8_t *image, size_t image_len,
                                       const uint8_t *list, size_t list_len,
                                       uint8_t *answers, size_t answers_cap,
                                       uint8_t *out, size_t out_cap);

struct undivarro_result plain_read(const uint8_t *image, size_t image_len,
                                   uint8_t *out, size_t out_cap);

struct undivarro_result plain_back(const uint8_t *image, size_t image_len,
                                   uint8_t *out, size_t out_cap);

struct undivarro_result plain_salvage(const uint8_t *image, size_t image_len,
                                      uint8_t *lines, size_t lines_cap,
                                      uint8_t *out, size_t out_cap);

#endif
