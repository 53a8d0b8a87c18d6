// Numbers that look random and are the same in every run of a test, and powers of two.
#ifndef NUMBERS_H
#define NUMBERS_H

#include <stdint.h>

// A number below the limit.
uint32_t below(uint32_t limit);

// 2 to the exponent.
uint32_t power(uint32_t exponent);

#endif
