/*
 * plain.h - the same rules in plain C, as a modem's programmer would write them:
 * what the benchmark compares the proved functions with. Same arguments, same
 * results, same checks in the same order.
 */
#ifndef PLAIN_H
#define PLAIN_H

#include <stddef.h>
#include <stdint.h>

uint32_t plain_read(const uint8_t *bytes, size_t length, uint32_t fields[11]);
uint32_t plain_offer(uint32_t record[12], uint32_t size);
uint32_t plain_hear(uint32_t record[12], const uint8_t *bytes, size_t length, uint32_t present, uint16_t draw,
                    uint32_t heard[3]);

#endif
