// The parts of the audit, by name.
#include "parts.h"

#include <string.h>

static enum part left_out = NO_PART;

bool leave_out(const char *name) {
    static const char *const names[PARTS] = {
        [NO_PART] = "",
        [GENERAL_PART] = "general",
        [HIGH_BITS_PART] = "high_bits",
        [FLAGS_PART] = "flags",
        [VECTORS_PART] = "vectors",
        [UPPER_HALVES_PART] = "upper_halves",
        [READS_PART] = "reads",
        [WRITES_PART] = "writes",
        [ADDRESSES_PART] = "addresses",
        [ENTRY_PART] = "entry",
        [INPUTS_PART] = "inputs",
        [BYTES_PART] = "bytes",
        [ANSWERS_PART] = "answers",
        [FLOW_PART] = "flow",
        [INSTRUCTIONS_PART] = "instructions",
        [STORES_PART] = "stores",
        [WIDTHS_PART] = "widths",
        [FIT_PART] = "fit",
        [LOG_ENTRIES_PART] = "log_entries",
        [ALONE_PART] = "alone",
        [TWOS_PART] = "twos",
        [BITS_PART] = "bits",
        [BESIDE_PART] = "beside",
        [LATER_PART] = "later",
        [COPIES_PART] = "copies",
        [PACE_PART] = "pace",
        [READING_PART] = "reading",
        [SETTINGS_PART] = "settings",
    };
    for (int part = NO_PART + 1; part < PARTS; part++)
        if (!strcmp(names[part], name)) left_out = (enum part)part;
    return left_out != NO_PART;
}

bool watches(enum part part) {
    return part != left_out;
}
