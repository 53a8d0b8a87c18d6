// Where instructions read and write memory, and how they go on: the table that operands.py makes of the program's own listing.
#ifndef OPERANDS_H
#define OPERANDS_H

#include <stdbool.h>
#include <stddef.h>
#include <stdint.h>

// The general registers, in the order of operands.py.
enum { RAX = 0, RCX = 2, RDX = 3, RSI = 4, RDI = 5, RSP = 7, R8 = 8, R9 = 9, GENERAL_REGISTERS = 16 };

// Base and index are registers, or -1. Length, way and place are the instruction's.
struct operand {
    uintptr_t instruction;
    int length;
    char way;        // 'n', 'm', 'j', 'b', 'c', 'r' or 'x': operands.py says which is which
    uintptr_t place; // that it names by its distance
    char access; // 'r' it is read, 'w' it is written, '-' the instruction takes no memory
    size_t width;
    int base, index;
    uint64_t scale;
    int64_t displacement;
};

// False where the file is no such table.
bool read_operands(const char *path);

// The first operand of an instruction, NULL where the instruction is not known. Its others follow, and there is always one
// of another instruction behind them.
const struct operand *operands_of(uintptr_t instruction);

uintptr_t address_of(const struct operand *operand, const uint64_t general[GENERAL_REGISTERS]);

#endif
