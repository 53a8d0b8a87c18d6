// The calls that can be audited, by name.
#ifndef SUBJECTS_H
#define SUBJECTS_H

enum {
    LOGGED = 1,    // it writes a log, and each 32 bits of what it handles, as wide as an entry, are a probe of their own
    CONTROL = 2,   // the audit is tried on it: the first case that leaks is enough
    BY_WIDTH = 4,  // it may run other code at n = 8 than at small widths
    USED = 8,      // it is called on the scratch that a call under method 2 with the same numbers has left, and refuses it
    CLEARS = 16,   // it takes the scratch alone, as such a call has left it, and clears it
    BY_TABLE = 32, // it may run other code on a table that is not balanced, and is audited on one at n = m = 8 too
    LEFT_BY_5 = 64 // the scratch was left by a call under method 5, both halves
};

struct subject {
    const char *name;
    void (*code)(void);
    unsigned first, cases; // the first of the exhaustive cases that is for it, and how many are
    unsigned flags;
};

// A frame, or a control that takes a frame's arguments.
struct frame {
    const char *name;
    void (*code)(void);
    unsigned rounds; // of AES
};

// A screen of random bytes, or a control that takes a screen's arguments.
struct screen {
    const char *name;
    void (*code)(void);
};

// A choice of one half by a masked bit, or a control that takes its arguments.
struct selection {
    const char *name;
    void (*code)(void);
    unsigned words; // how many words it is audited with at width 2
    unsigned flags; // LOGGED
};

// NULL where there is none
const struct subject *subject_named(const char *name);
const struct frame *frame_named(const char *name);
const struct screen *screen_named(const char *name);
const struct selection *selection_named(const char *name);

#endif
