// Chooses one half of a word by a bit, of which neither is formed: the C side of a selection, with fresh masks from the system. Word and bit
// are split here only to show what comes out: a device has both in shares.
#include <cippazhey.h>
#include <stdio.h>

// Of a half; the word has twice as many bits.
enum { WIDTH = 4 };

int main(void) {
    const uint32_t word = 0x5a;
    uint8_t random[7], share0, share1, share2;
    FILE *noise = fopen("/dev/urandom", "rb");
    if (!noise) return 1;
    for (uint32_t bit = 0; bit < 2; bit++) {
        if (fread(random, 1, sizeof random, noise) != sizeof random) return 1;
        uint32_t z1 = random[0], z2 = random[1], t1 = random[2] % 16, t2 = random[3] % 16, c1 = random[4] % 2, c2 = random[5] % 2;
        uint32_t refusal = cippazhey_select(WIDTH, word ^ z1 ^ z2, z1, z2, bit ^ c1 ^ c2, c1, c2, t1, t2, random[6] % 2, &share0, &share1, &share2);
        if (refusal != CIPPAZHEY_ACCEPTED) return 1;
        printf("word %02x %02x %02x, bit %u %u %u in, shares %x %x %x out, joined: half %u of %02x = %x\n", (unsigned)(word ^ z1 ^ z2),
               (unsigned)z1, (unsigned)z2, (unsigned)(bit ^ c1 ^ c2), (unsigned)c1, (unsigned)c2, (unsigned)share0, (unsigned)share1,
               (unsigned)share2, (unsigned)bit, (unsigned)word, (unsigned)(share0 ^ share1 ^ share2));
    }
    cippazhey_clear(random, sizeof random);
    fclose(noise);
    return 0;
}
