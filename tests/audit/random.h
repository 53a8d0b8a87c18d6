// Bytes that look random and are the same in every run of the audit.
#ifndef RANDOM_H
#define RANDOM_H

#include <stdint.h>

uint8_t random_byte(void);

#endif
