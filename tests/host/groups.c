// A test program's comparisons, in groups that can be run alone.
#include "groups.h"

#include <stdio.h>
#include <stdlib.h>
#include <string.h>

enum { MOST_FAILED = 20 };

static unsigned long passed, failed;

void record(bool good, const char *what) {
    if (good) {
        passed++;
        return;
    }
    failed++;
    printf("DIFFERS: %s\n", what);
    if (failed == MOST_FAILED) {
        exit(1);
    }
}

// Whether a group was run whole, and all of it came out well.
static bool run_group(const struct group *group) {
    unsigned long passed_before = passed, failed_before = failed;
    group->run();
    unsigned long good = passed - passed_before, bad = failed - failed_before;
    printf("%s: %lu passed, %lu failed, of %lu\n", group->name, good, bad, group->comparisons);
    return good == group->comparisons && bad == 0;
}

int run_groups(const struct group *groups, size_t number, int count, char **words) {
    bool right = true;
    size_t run = 0;
    // a call that ends the program still leaves the lines before it
    setvbuf(stdout, NULL, _IOLBF, BUFSIZ);
    for (size_t each = 0; each < number; each++) {
        if (count < 2 || strcmp(words[1], groups[each].name) == 0) {
            right = run_group(&groups[each]) && right;
            run++;
        }
    }
    printf("%lu passed, %lu failed\n", passed, failed);
    return right && run > 0 ? 0 : 1;
}
