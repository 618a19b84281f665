/* The checksum of a packet: the XOR of the bytes before it. */
#ifndef CHECKSUM_H
#define CHECKSUM_H

#include <stddef.h>
#include <stdint.h>

uint8_t xor_of(const uint8_t *bytes, size_t len);

#endif
