// Reads the table of operands, and looks up in it.
#include "operands.h"

#include <inttypes.h>
#include <stdio.h>
#include <stdlib.h>

static struct operand *operands; // in the order of their instructions, with an empty one at the end
static size_t count;
static size_t *first_at; // by the distance from the first instruction: one more than the number of an instruction's first operand, or 0

static void index_operands(void) {
    uintptr_t first = operands[0].instruction, last = operands[count - 1].instruction;
    first_at = calloc(last - first + 1, sizeof *first_at);
    if (!first_at) abort();
    for (size_t i = count; i > 0; i--) first_at[operands[i - 1].instruction - first] = i;
}

bool read_operands(const char *path) {
    FILE *table = fopen(path, "r");
    struct operand next;
    size_t room = 0;
    if (!table) return false;
    while (fscanf(table, "%" SCNxPTR " %d %c %" SCNxPTR " %c %zu %d %d %" SCNu64 " %" SCNd64, &next.instruction, &next.length, &next.way,
                  &next.place, &next.access, &next.width, &next.base, &next.index, &next.scale, &next.displacement) == 10) {
        if (count && next.instruction < operands[count - 1].instruction) break;
        if (count + 1 >= room) operands = realloc(operands, (room = 2 * room + 1024) * sizeof *operands);
        if (!operands) abort();
        operands[count++] = next;
    }
    bool whole = count && feof(table);
    if (whole) operands[count] = (struct operand){.access = '-'}, index_operands();
    fclose(table);
    return whole;
}

const struct operand *operands_of(uintptr_t instruction) {
    uintptr_t first = operands[0].instruction, last = operands[count - 1].instruction;
    size_t number = instruction >= first && instruction <= last ? first_at[instruction - first] : 0;
    return number ? &operands[number - 1] : NULL;
}

uintptr_t address_of(const struct operand *operand, const uint64_t general[GENERAL_REGISTERS]) {
    uint64_t base = operand->base < 0 ? 0 : general[operand->base], index = operand->index < 0 ? 0 : general[operand->index];
    return base + index * operand->scale + (uint64_t)operand->displacement;
}
