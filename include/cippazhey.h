// Cippazhey for C and C++: the masked table lookup on three shares, a whole AES-128 frame on three shares, the choice of one
// half of a word by a bit on three shares of both, the numbers of their refusals, what their caller owes, the screening of
// random bytes, and the call that clears a buffer.
// Link libcippazhey.a, which `make lib` writes to target/staticlib/. It needs memset and memcpy at most.
// docs/REFERENCE.md has the numbers in each call's order of checking, the methods step by step, and the masks.
#ifndef CIPPAZHEY_H
#define CIPPAZHEY_H

#include <stddef.h>
#include <stdint.h>

#ifdef __cplusplus
extern "C" {
#endif

// A changed call or refusal raises the minor number.
#define CIPPAZHEY_VERSION_MAJOR 0
#define CIPPAZHEY_VERSION_MINOR 4
#define CIPPAZHEY_VERSION_PATCH 0

// Why a call is refused. The order of this list is the order of checking, and the first that applies is returned.
enum cippazhey_refusal {
    CIPPAZHEY_ACCEPTED = 0,
    CIPPAZHEY_REFUSED_METHOD = 2,          // the method is none of 2, 3 and 5
    CIPPAZHEY_REFUSED_INPUT_WIDTH = 3,     // n is below 1 or above 8
    CIPPAZHEY_REFUSED_OUTPUT_WIDTH = 4,    // m is below 1 or above 8
    CIPPAZHEY_REFUSED_TABLE_LENGTH = 5,    // the table does not have exactly 2^n entries
    CIPPAZHEY_REFUSED_TABLE_ENTRY = 6,     // a table entry is 2^m or more
    CIPPAZHEY_REFUSED_UNFIT_TABLE = 7,     // not fit: values occur unequally often, or the exclusive or of three is none of them
    CIPPAZHEY_REFUSED_SELECT_WIDTH = 20,   // the width of a half is below 1 or above 8
    CIPPAZHEY_REFUSED_SELECT_INPUT = 21,   // a share or a mask of a selection is too large for its width
    CIPPAZHEY_REFUSED_INPUT_SHARE = 10,    // x0, r1, r2 or r3 is 2^n or more
    CIPPAZHEY_REFUSED_OUTPUT_MASK = 11,    // s1 or s2 is 2^m or more
    CIPPAZHEY_REFUSED_OWN_MASK = 12,       // b is above 0, under method 3 above 1; or r3 is above 0 under method 5
    CIPPAZHEY_REFUSED_RANDOM_LENGTH = 26,  // a frame is not lent exactly 632 random bytes
    CIPPAZHEY_REFUSED_FAULTY_RANDOM = 27,  // a value stands more than 20 times in 512 consecutive ones of these bytes
    CIPPAZHEY_REFUSED_SCRATCH_LENGTH = 13, // scratch has fewer than 2^n bytes, under method 5 than 2^(n+1); for a frame than 256
    CIPPAZHEY_REFUSED_DIRTY_SCRATCH = 19   // one of the bytes that 13 asks for is not zero; a frame clears them itself
};

// A lookup needs 2^n bytes of scratch, under method 5 2^(n+1). The first number suffices for every method and width, and for a
// frame; the second for a frame, and for methods 2 and 3 at every width.
#define CIPPAZHEY_SCRATCH_LENGTH 512
#define CIPPAZHEY_FRAME_SCRATCH_LENGTH 256

// A frame takes this many random bytes.
#define CIPPAZHEY_RANDOM_LENGTH 632

// What cippazhey_screen returns where no window of the run is faulty. No window of any run starts there.
#define CIPPAZHEY_NO_FAULT UINT64_MAX

// Looks up the secret x = x0 ^ r1 ^ r2 in a table of 2^n entries of m bits, without ever forming x.
// Accepted, it returns the share table[x] ^ s1 ^ s2; s1 and s2 are the other two shares of table[x].
//
//   method       2 looks up in a masked copy of the table; 3 compares; 5, Schramm and Paar's, looks up in the second of two
//                masked copies in a row, which is made of the first. All return the same share.
//   n, m         the table's input and output widths in bits, each from 1 to 8
//   x0, r1, r2   the three shares of the secret: x ^ r1 ^ r2 and the two masks
//   s1, s2       the masks of the output
//   r3           under methods 2 and 3 a mask of width n that the lookup itself uses, under method 5 always 0
//   b            under method 3 a random bit, under the others always 0
//   table        one byte an entry; only read. It must be fit: all values that occur in it do so equally often, and the
//                exclusive or of any three of them, repeats allowed, occurs as well. A balanced table, which has every value
//                below 2^m equally often, is fit; so is a permutation, with m = n.
//   scratch      its first 2^n bytes, under method 5 2^(n+1), must be zero; what stands behind them is not looked at, and
//                stays. Accepted, they become method 2's masked table, method 3's comparison bytes, or method 5's two
//                masked copies, a half each. Refused, all of it stays.
//
// Which method: 2, as a frame does. It takes the fewest instructions (docs/PERFORMANCE.md has them). 3 leaves the least in
// scratch. 5 draws no mask of its own, so n bits fewer than 2, for twice the scratch and a second pass; it leaves the most.
//
// What the caller owes:
//   - table and scratch point to as many bytes as their lengths say. NULL is allowed only with length 0.
//   - table and scratch do not overlap, and nothing else touches them while the call runs.
//   - r1, r2, s1, s2, r3 where it is not always 0, and b under method 3 are uniform, independent, and new for each call. No
//     call can check that.
//   - scratch is cleared with cippazhey_clear, best the whole of it: before the first call, and after each as soon as it has
//     returned, all bytes that the method needs at least. What the methods leave there:
//     Method 2: byte r3 is the returned share, the others are the table's other entries under the same masks. Together they
//     can tell s1 ^ s2 (for the S-box of AES they do), and that with the returned share gives table[x].
//     Method 3: r3 and b.
//     Method 5: byte a of the first half is table[a ^ r1] ^ s1, byte a of the second table[a ^ r1 ^ r2] ^ s1 ^ s2, byte x0
//     of it the returned share. The first half can tell r1 and s1, with the second r2 and s2 too (for the S-box of AES they
//     do): two of the three shares of x and of table[x], so x0 gives x, and the returned share table[x]. To clear one half
//     is not enough: the second alone still tells r1 ^ r2 and s1 ^ s2.
//     A call that finds a nonzero byte among those that it needs is refused, and leaves it there. That is no guard, for it
//     takes zeros from whatever left them: a narrower call may find some in what a wider one left, methods 2 and 3 do not
//     look at method 5's second half, and methods 2 and 5 may leave zeros of a constant table.
//
// What is proved of the source:
//   - Every call returns, and reads and writes only the bytes it is lent.
//   - The result and every byte of scratch are what the definitions in specs/ make of the arguments and of the scratch;
//     docs/REFERENCE.md has them in words. A refused call writes nothing.
//   - Any two of the values that the method's log lists tell nothing of the secret, for every fit table and all widths.
// What is not proved:
//   - How long a call takes.
//   - What the compiled code holds in registers and memory. That was audited, for the x86-64 archive and its compiler only.
//   - A caller that passes a constant for a mask lets its compiler undo the masking: neither proved nor audited.
//   - Three values taken together can tell the secret, and so may masks that are not uniform or are used twice.
// What is not cleared: the call's own stack and registers. x0, r1 and r2 stay there, which together are the secret, and under
// method 3 the answer too: overwrite that stack (docs/PERFORMANCE.md says how deep it is), or let nobody read it.
//
// Returned is refusal * 256 + share, the share 0 on refusal. So a returned 19 is a share; the refusal 19 is a returned 4864.
// Look at the refusal first: a 0 joined with s1 and s2 looks like an answer.
uint16_t cippazhey_plain_call(uint32_t method, uint32_t n, uint32_t m, uint32_t x0, uint32_t r1, uint32_t r2, uint32_t s1,
                              uint32_t s2, uint32_t r3, uint32_t b, const uint8_t *table, size_t table_length,
                              uint8_t *scratch, size_t scratch_length);

// Encrypts one block by AES-128 (FIPS 197) with key and state in three shares; the plaintext comes unshared. Accepted, the
// shares that it writes join to the ciphertext: share1 ^ share2 ^ share3. Blocks have FIPS 197's order: byte r + 4c is row r
// of column c.
//
//   plaintext           16 bytes; only read
//   key1, key2, key3    the three shares of the key, which is key1 ^ key2 ^ key3, 16 bytes each; only read. Round constants
//                       are added to key1's share of the round keys.
//   random              632 bytes; only read. They are screened as by cippazhey_screen before anything else is made of
//                       them. First come r1 and r2 of the plaintext, 16 bytes each: its shares are
//                       plaintext ^ r1 ^ r2, r1, r2. Then s1, s2, r3 of each of the 200 lookups: in each of ten rounds, the
//                       four bytes of the rotated key word (bytes 1, 2, 3, 0 of the last word) come before the sixteen of
//                       the state, each in byte order.
//   scratch             at least 256 bytes, whatever they hold: the first 256 are cleared before each lookup and after the
//                       last, and are zero afterwards. What stands behind them stays.
//   share1 .. share3    16 bytes each. share1 is made of the lookups' answers and key1, share2 of the masks s1 and key2,
//                       share3 of the masks s2 and key3.
//
// What the caller owes:
//   - Each pointer points to 16 bytes, or to as many as its length says. NULL is allowed only with length 0.
//   - Scratch and the three results overlap neither each other nor what is read, and nothing else touches any of them while
//     the call runs.
//   - The random bytes are uniform, independent, secret, and new for each frame: none is ever used twice. No call can check
//     that: the screen notices a value that comes far too often, and nothing else. After the call they are cleared with
//     cippazhey_clear: beside them, the first share of a byte that was looked up gives the byte away.
//   - A frame whose random bytes are faulty is tried again with 632 new ones. A good source is refused so almost never
//     (docs/ASSURANCE.md says how often): one that is refused twice is taken out of service.
//   - key2 and key3 are uniform, independent masks, new for each frame. A key that is kept in shares gets new ones without
//     being joined: add two new masks to key1, one after the other, and one of them to key2, the other to key3.
//
// What is proved of the source:
//   - Every call returns, and reads and writes only the bytes it is lent.
//   - The refusal, the results and every byte of scratch are what the definitions in specs/ make of the arguments and of
//     what is lent; docs/REFERENCE.md has them in words. In every accepted frame the results join to the ciphertext of
//     FIPS 197. A refused call writes nothing.
//   - Any two of the values that the logs of sixteen lookups list tell nothing of what is looked up, all masks being uniform
//     and independent. A frame's own lookups take the shares that earlier ones left: of those it is not proved.
// What is not proved: that of two values of a whole frame; how long a call takes; what the compiled code holds in registers
// and memory. Its values were audited by twos, by a linear test, for the x86-64 archive and its compiler only. The screen's
// counts are outside of all this: a count is made of many masks at once, and beside a masked value it can tell something
// (docs/ASSURANCE.md).
// What is not cleared: the call's own stack and registers. They held shares; and the screen's copy of the last 512 random
// bytes stays there, with their counts, as far as the call does not use that stack again: clearing random does not clear it.
//
// Returned is the refusal. Only the number of random bytes, a fault in them and the length of scratch are refused, in this
// order. Refused, scratch and the results stay as they were.
uint32_t cippazhey_encrypt_frame(const uint8_t plaintext[16], const uint8_t key1[16], const uint8_t key2[16],
                                 const uint8_t key3[16], const uint8_t *random, size_t random_length, uint8_t *scratch,
                                 size_t scratch_length, uint8_t share1[16], uint8_t share2[16], uint8_t share3[16]);

// Chooses one half of the word z = z0 ^ z1 ^ z2 by the bit c = c0 ^ c1 ^ c2, without ever forming either: 0 is the high half,
// 1 the low one. Accepted, the shares that it writes join to that half: share0 ^ share1 ^ share2.
//
//   width                    of a half in bits, 1 to 8; the word has twice as many
//   z0, z1, z2               the three shares of the word, each below 2^(2 * width): z ^ z1 ^ z2 and the two masks
//   c0, c1, c2               the three shares of the bit, each 0 or 1: c ^ c1 ^ c2 and the two masks
//   t1, t2                   masks of the results, each below 2^width
//   b                        a random bit that the choice itself uses; no result depends on it
//   share0, share1, share2   a byte each: the chosen half of z0, with t1 added; that of z1, with t2; that of z2, with both.
//                            What stood there is not looked at. Refused, all three stay as they were.
//
// What the caller owes:
//   - Each of share0, share1 and share2 points to a byte of its own, and nothing else touches them while the call runs.
//   - z1, z2, c1, c2, t1, t2 and b are uniform, independent of each other and of word and bit, and new for each call. No call
//     can check that.
//
// What is proved of the source:
//   - Every call returns, and writes only the three bytes it is lent.
//   - The refusal and the three bytes are what the definitions in specs/ make of the numbers and of what stood there;
//     docs/REFERENCE.md has them in words. Accepted, they join to the chosen half. A refused call writes nothing.
//   - Any two of the values that the log of a selection lists tell nothing of the word and of the bit, for all widths.
// What is not proved:
//   - How long a call takes.
//   - What the compiled code holds in registers and memory. That was audited, for the x86-64 archive and its compiler only.
//   - A caller that passes a constant for a mask lets its compiler undo the masking: neither proved nor audited.
//   - Three values taken together can tell the word or the bit, as z0, t1 and share0 do, and so may masks that are not
//     uniform or are used twice.
// What is not cleared: the call's own stack and registers. Shares of the word, of the bit and of the half stay there: overwrite
// that stack (docs/PERFORMANCE.md says how deep it is), or let nobody read it.
//
// Returned is the refusal. Only the width and a number that is too large are refused, in this order. Look at it first: what a
// refused call leaves looks like three shares.
uint32_t cippazhey_select(uint32_t width, uint32_t z0, uint32_t z1, uint32_t z2, uint32_t c0, uint32_t c1, uint32_t c2,
                          uint32_t t1, uint32_t t2, uint32_t b, uint8_t *share0, uint8_t *share1, uint8_t *share2);

// Screens a run of random bytes, byte after byte, so that a stuck noise source is noticed. The run is faulty if some value
// stands more than 20 times in 512 consecutive bytes, a window; a run of fewer than 512 bytes is one window. Returned is the
// first faulty window's start, counted from 0, or CIPPAZHEY_NO_FAULT: a returned 0 is a fault. An empty run is not faulty.
// Nothing is refused.
// A frame screens its random bytes itself; those of a single lookup are not screened.
//
//   run          only read; NULL is allowed only with length 0
//   length       how many bytes run points to: any number
//
// What the caller owes: nothing writes to the run while the call runs.
//
// What is proved of the source: the call returns, and reads only the bytes it is lent; what it returns is the first faulty
// window's start, as it is defined above, or CIPPAZHEY_NO_FAULT where no window is faulty.
// What is not: that a run without a fault is random. No screen can notice a source that is predictable and even: one that
// only counts up is not faulty. Nor is anything claimed of what the screen handles: its counts tell of many bytes at once.
// What is not cleared: the call's own stack, where a copy of the last 512 bytes stays, with their counts.
uint64_t cippazhey_screen(const uint8_t *run, size_t length);

// Sets every byte of a buffer to zero: scratch, before the first lookup and after each. Nothing is refused.
// A memset is not enough: a compiler may drop it where the buffer is not read again. It does not see into this call.
//
//   buffer       written; NULL is allowed only with length 0
//   length       how many bytes buffer points to: any number
//
// What is proved of the source: the call returns, and every byte of the buffer is zero afterwards; it writes no other.
// What is not: that the compiled call and the firmware's memset, which it becomes, do so. That is tested.
// What is not cleared: copies on the stack and in registers, a call's own or those that the caller's compiler made.
void cippazhey_clear(uint8_t *buffer, size_t length);

// The refusal in a lookup's result: one of the numbers above, CIPPAZHEY_ACCEPTED where there is none.
static inline unsigned cippazhey_refusal_of(uint16_t result) {
    return result / 256u;
}

// The share in a lookup's result.
static inline uint8_t cippazhey_share_of(uint16_t result) {
    return (uint8_t)(result % 256u);
}

#ifdef __cplusplus
}
#endif

#endif
