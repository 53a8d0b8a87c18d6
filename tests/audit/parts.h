// The parts of the audit. Each can be left out, so that its control can be seen to go unnoticed without it.
#ifndef PARTS_H
#define PARTS_H

#include <stdbool.h>

enum part {
    NO_PART,
    GENERAL_PART,      // general registers
    HIGH_BITS_PART,    // and their bits from the ninth on
    FLAGS_PART,        // the arithmetic flags
    VECTORS_PART,      // vector registers
    UPPER_HALVES_PART, // and their upper 16 bytes
    READS_PART,        // what is read from memory
    WRITES_PART,       // what is written to memory
    ADDRESSES_PART,    // where memory is read or written, if base and index make the address
    ENTRY_PART,        // what the registers hold before the first instruction
    INPUTS_PART,       // all inputs are compared, not only 0 and 1
    BYTES_PART,        // the linear comparison goes by bytes
    ANSWERS_PART,      // every answer is right
    FLOW_PART,         // all calls run the same instructions
    INSTRUCTIONS_PART, // every instruction is known
    STORES_PART,       // memory changes only where an instruction is known to write
    WIDTHS_PART,       // what runs at n = 8 runs at n = 2
    FIT_PART,          // tables that are fit and not balanced
    LOG_ENTRIES_PART,  // of a logged call, 32 bits are one probe, not 16
    ALONE_PART,        // of a frame, each column by itself
    TWOS_PART,         // and with each other
    BITS_PART,         // a column is a bit, not a byte
    BESIDE_PART,       // two bytes of one value are a column too
    LATER_PART,        // what the first call leaves as it is and a later one changes
    COPIES_PART,       // copied instructions do what the code does
    PACE_PART,         // of a screen, few instructions a byte; of a lookup at n = m = 8, few an entry
    READING_PART,      // of a screen, each byte is read once
    SETTINGS_PART,     // of a selection, in each setting of its bits
    PARTS
};

// From now on the audit is without this part. False where no part has this name.
bool leave_out(const char *name);
bool watches(enum part part);

#endif
