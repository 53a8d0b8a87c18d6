// Encrypts the block of FIPS 197, appendix B, with its key in three shares: the C side of a whole frame, with random bytes from the system.
// The key is split here only because FIPS 197 gives it whole: a device keeps it in shares.
#define _DEFAULT_SOURCE // for getrandom
#include <cippazhey.h>
#include <stdio.h>
#include <sys/random.h>

static const uint8_t plaintext[16] = {0x32, 0x43, 0xf6, 0xa8, 0x88, 0x5a, 0x30, 0x8d, 0x31, 0x31, 0x98, 0xa2, 0xe0, 0x37, 0x07, 0x34};
static const uint8_t key[16] = {0x2b, 0x7e, 0x15, 0x16, 0x28, 0xae, 0xd2, 0xa6, 0xab, 0xf7, 0x15, 0x88, 0x09, 0xcf, 0x4f, 0x3c};

static int draw(uint8_t *bytes, size_t length) {
    size_t drawn = 0;
    while (drawn < length) {
        ssize_t more = getrandom(bytes + drawn, length - drawn, 0);
        if (more < 0) return 0;
        drawn += (size_t)more;
    }
    return 1;
}

static void print_block(const char *name, const uint8_t block[16]) {
    printf("%-10s", name);
    for (int place = 0; place < 16; place++) printf(" %02x", block[place]);
    printf("\n");
}

int main(void) {
    uint8_t key1[16], key2[16], key3[16], random[CIPPAZHEY_RANDOM_LENGTH], scratch[CIPPAZHEY_FRAME_SCRATCH_LENGTH];
    uint8_t share1[16], share2[16], share3[16], ciphertext[16];
    if (!draw(key2, 16) || !draw(key3, 16) || !draw(random, sizeof random)) return 1;
    for (int place = 0; place < 16; place++) key1[place] = key[place] ^ key2[place] ^ key3[place];
    uint32_t refusal =
        cippazhey_encrypt_frame(plaintext, key1, key2, key3, random, sizeof random, scratch, sizeof scratch, share1, share2, share3);
    cippazhey_clear(random, sizeof random);
    if (refusal == CIPPAZHEY_REFUSED_FAULTY_RANDOM) fprintf(stderr, "the random bytes are faulty\n");
    if (refusal != CIPPAZHEY_ACCEPTED) return 1;
    for (int place = 0; place < 16; place++) ciphertext[place] = share1[place] ^ share2[place] ^ share3[place];
    print_block("share 1", share1);
    print_block("share 2", share2);
    print_block("share 3", share3);
    print_block("ciphertext", ciphertext);
    return 0;
}
