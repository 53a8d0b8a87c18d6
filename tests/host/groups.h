// A test program's comparisons, in groups that can be run alone. Each group must make as many as it says.
#ifndef GROUPS_H
#define GROUPS_H

#include <stdbool.h>
#include <stddef.h>

struct group {
    const char *name;
    void (*run)(void);
    unsigned long comparisons;
};

// Counts one comparison; one that comes out ill is printed, and the twentieth of them ends the program.
void record(bool good, const char *what);

// Runs the group that the program's one word names, or all. Prints a line of counts for each. Returns 1 if a comparison came out ill or if
// some are missing, and 0 otherwise.
int run_groups(const struct group *groups, size_t number, int count, char **words);

#endif
