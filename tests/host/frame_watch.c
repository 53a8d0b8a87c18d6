// A frame's scratch, watched while the frame runs: a group of frame_test.c. Scratch stands in a page that may not be touched. Each access
// raises a signal, whose handler looks at the scratch and lets that one instruction through.
#define _GNU_SOURCE // for the registers that a signal handler is given
#include "frame_watch.h"

#include "aes.h"
#include "cippazhey.h"
#include "frame_trial.h"

#include <signal.h>
#include <stdlib.h>
#include <string.h>
#include <sys/mman.h>
#include <ucontext.h>
#include <unistd.h>

enum { LOOKUPS = 200, ENTRIES = 256, WRITES = 2 * ENTRIES, TRAP_FLAG = 0x100, ACCESS_WRITES = 2 };

// A write: its place, what it leaves there, and whether scratch was zero before.
struct write {
    uint8_t place, value;
    bool clean;
};

// A lookup as the scratch shows it, when its answer is read: the last writes, two for each entry, from the oldest on, and what stands there.
struct seen {
    unsigned times;
    struct write writes[WRITES];
    uint8_t entries[ENTRIES];
};

// By the place that the answer is read from, r3. In the watched frame no two lookups have the same.
static struct seen lookups[ENTRIES];
static unsigned answers, beside, nonzero_writes;
// The page as the last step left it, and how many bytes changed since that were no write's place.
static uint8_t *shadow;
static unsigned changed_beside;
// The last writes, in a ring, and the one that is under way.
static struct write writes[WRITES], *writing;
static unsigned next_write;
static uint8_t *scratch;
static size_t page_length;

static bool all_zero(void) {
    static const uint8_t zeros[ENTRIES];
    return memcmp(scratch, zeros, ENTRIES) == 0;
}

static void note_write(uint8_t place) {
    writing = &writes[next_write++ % WRITES];
    writing->place = place;
    writing->clean = all_zero();
}

// To read zeros where all is zero tells nothing.
static void note_read(uint8_t place) {
    if (all_zero()) {
        return;
    }
    struct seen *lookup = &lookups[place];
    lookup->times++;
    for (unsigned each = 0; each < WRITES; each++) {
        lookup->writes[each] = writes[(next_write + each) % WRITES];
    }
    memcpy(lookup->entries, scratch, ENTRIES);
    answers++;
}

// An access elsewhere is an error of its own, and ends the program once the system meets it again.
static void on_access(int number, siginfo_t *info, void *context) {
    greg_t *registers = ((ucontext_t *)context)->uc_mcontext.gregs;
    size_t place = (size_t)((uint8_t *)info->si_addr - scratch);
    if (place >= page_length) {
        signal(number, SIG_DFL);
        return;
    }
    mprotect(scratch, page_length, PROT_READ | PROT_WRITE);
    if (place >= ENTRIES) {
        beside++;
    } else if (registers[REG_ERR] & ACCESS_WRITES) {
        note_write((uint8_t)place);
    } else {
        note_read((uint8_t)place);
    }
    registers[REG_EFL] |= TRAP_FLAG;
}

// A wide store changes more than the byte that it is seen at. Only zeros beside a zero may: so is scratch cleared, many bytes at once.
static void compare_with_shadow(bool zero_written) {
    if (memcmp(shadow, scratch, page_length) == 0) {
        return;
    }
    for (size_t place = 0; place < page_length; place++) {
        bool cleared = zero_written && place < ENTRIES && scratch[place] == 0;
        changed_beside += scratch[place] != shadow[place] && !cleared;
    }
    memcpy(shadow, scratch, page_length);
}

static void on_step(int number, siginfo_t *info, void *context) {
    (void)number, (void)info;
    bool zero_written = false;
    if (writing != NULL) {
        writing->value = shadow[writing->place] = scratch[writing->place];
        zero_written = writing->value == 0;
        nonzero_writes += !zero_written;
        writing = NULL;
    }
    compare_with_shadow(zero_written);
    mprotect(scratch, page_length, PROT_NONE);
    ((ucontext_t *)context)->uc_mcontext.gregs[REG_EFL] &= ~(greg_t)TRAP_FLAG;
}

static void handle(int number, void (*handler)(int, siginfo_t *, void *), struct sigaction *before) {
    struct sigaction action = {0};
    action.sa_sigaction = handler;
    action.sa_flags = SA_SIGINFO;
    sigaction(number, &action, before);
}

// Encrypts a frame on watched scratch of a length.
static uint32_t watch(frame_call *call, struct frame_trial *trial, size_t length) {
    struct sigaction access_before, step_before;
    struct buffer lent[BUFFERS];
    list_buffers(trial, lent);
    lent[SCRATCH].bytes = scratch;
    lent[SCRATCH].length = length;
    memset(lookups, 0, sizeof lookups);
    answers = beside = nonzero_writes = changed_beside = next_write = 0;
    writing = NULL;
    memset(scratch, 0xff, page_length);
    memset(shadow, 0xff, page_length);
    handle(SIGSEGV, on_access, &access_before);
    handle(SIGTRAP, on_step, &step_before);
    mprotect(scratch, page_length, PROT_NONE);
    uint32_t refusal = call_with(call, lent);
    mprotect(scratch, page_length, PROT_READ | PROT_WRITE);
    sigaction(SIGSEGV, &access_before, NULL);
    sigaction(SIGTRAP, &step_before, NULL);
    return refusal;
}

// Whether a lookup filled scratch, which was clean, in the order of method 2, entry a at a ^ r', by so many writes for each entry. The first
// of two leaves it without s2.
static bool filled(const struct seen *lookup, uint8_t r_prime, uint8_t s2, unsigned each) {
    const struct write *first = lookup->writes + WRITES - each * ENTRIES;
    for (unsigned a = 0; a < ENTRIES; a++) {
        for (unsigned done = 1; done <= each; done++) {
            const struct write *each_write = &first[each * a + done - 1];
            if (each_write->place != (a ^ r_prime) || each_write->value != (lookup->entries[each_write->place] ^ (done < each ? s2 : 0))) {
                return false;
            }
        }
    }
    return first->clean;
}

// How many writes for each entry a lookup made, or 0. All lookups of a frame must make the same.
static unsigned writes_an_entry(const struct seen *lookup, uint8_t r_prime, uint8_t s2) {
    return filled(lookup, r_prime, s2, 1) ? 1 : filled(lookup, r_prime, s2, 2) ? 2 : 0;
}

// Whether its entries are the S-box under s1 and s2, shifted by its secret and r3. The secret is the one whose entry the answer is.
static bool masked(const struct seen *lookup, const uint8_t masks[3]) {
    uint8_t r3 = masks[2], output = lookup->entries[r3] ^ masks[0] ^ masks[1];
    unsigned secret = 0;
    while (aes_sbox[secret] != output) {
        secret++;
    }
    for (unsigned place = 0; place < ENTRIES; place++) {
        if (lookup->entries[place] != (aes_sbox[secret ^ r3 ^ place] ^ masks[0] ^ masks[1])) {
            return false;
        }
    }
    return true;
}

static uint8_t *new_page(void) {
    uint8_t *page = mmap(NULL, page_length, PROT_READ | PROT_WRITE, MAP_PRIVATE | MAP_ANONYMOUS, -1, 0);
    if (page == MAP_FAILED) {
        record(false, "the system lends no memory");
        exit(1);
    }
    return page;
}

static void lend_scratch(void) {
    page_length = (size_t)sysconf(_SC_PAGESIZE);
    scratch = new_page();
    shadow = new_page();
}

// A lookup's entries are all bytes, each once, so one of its 256 is zero, with s2 and without; clearing writes none that is not.
static void watch_at_length(size_t length) {
    struct frame_trial trial = stored_trial(&frame_cases[frame_case_count - 1]);
    unsigned passes = 0, writes_first = 0;
    record(watch(cippazhey_encrypt_frame, &trial, length) == CIPPAZHEY_ACCEPTED, "watched frame");
    record(answers == LOOKUPS && beside == 0, "number of lookups, and nothing beside them");
    record(all_zero(), "watched scratch after the last lookup");
    for (unsigned each = 0; each < LOOKUPS; each++) {
        const uint8_t *masks = trial.random + 32 + 3 * each;
        const struct seen *lookup = &lookups[masks[2]];
        unsigned writes_each = writes_an_entry(lookup, last_r_primes[each], masks[1]);
        passes += writes_each;
        writes_first = each == 0 ? writes_each : writes_first;
        record(lookup->times == 1, "one lookup for each r3");
        record(writes_each != 0 && writes_each == writes_first, "cleared scratch filled in the order of method 2, as often as before");
        record(masked(lookup, masks), "entries under their masks");
    }
    record(nonzero_writes == passes * (ENTRIES - 1) && changed_beside == 0, "nothing written but entries and zeros, nor beside them");
}

// Scratch that is just long enough, and longer.
void watched_scratch(void) {
    lend_scratch();
    watch_at_length(ENTRIES);
    watch_at_length(page_length);
}
