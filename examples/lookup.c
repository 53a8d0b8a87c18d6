// Looks up a secret in a table without forming it: the C side of a masked lookup, with fresh masks from the system. A lookup begins with
// zeros in its scratch and leaves it used, so it is cleared before the first and after each.
#include <cippazhey.h>
#include <stdio.h>

static const uint32_t methods[3] = {2, 3, 5};

// The S-box of PRESENT: four bits in, four bits out.
static const uint8_t table[16] = {12, 5, 6, 11, 9, 0, 10, 13, 3, 14, 15, 8, 4, 7, 1, 2};

int main(void) {
    uint8_t scratch[CIPPAZHEY_SCRATCH_LENGTH], random[6];
    FILE *noise = fopen("/dev/urandom", "rb");
    if (!noise) return 1;
    cippazhey_clear(scratch, sizeof scratch);
    for (uint32_t secret = 0; secret < 16; secret += 5) {
        for (int each = 0; each < 3; each++) {
            if (fread(random, 1, sizeof random, noise) != sizeof random) return 1;
            uint32_t method = methods[each], r1 = random[0] % 16, r2 = random[1] % 16, s1 = random[2] % 16, s2 = random[3] % 16;
            uint32_t r3 = method == 5 ? 0 : random[4] % 16, b = method == 3 ? random[5] % 2 : 0; // a method's own masks
            uint16_t result = cippazhey_plain_call(method, 4, 4, secret ^ r1 ^ r2, r1, r2, s1, s2, r3, b, table, 16, scratch, sizeof scratch);
            cippazhey_clear(scratch, sizeof scratch);
            if (cippazhey_refusal_of(result) != CIPPAZHEY_ACCEPTED) return 1;
            unsigned share = cippazhey_share_of(result);
            printf("method %u: shares %2u %2u %2u in, shares %2u %2u %2u out, joined: table[%2u] = %2u\n", (unsigned)method,
                   (unsigned)(secret ^ r1 ^ r2), (unsigned)r1, (unsigned)r2, share, (unsigned)s1, (unsigned)s2, (unsigned)secret,
                   (unsigned)(share ^ s1 ^ s2));
        }
    }
    fclose(noise);
    return 0;
}
