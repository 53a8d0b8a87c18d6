// Frames whose random bytes are faulty, or nearly so: a group of frame_test.c.
#ifndef FRAME_FAULTS_H
#define FRAME_FAULTS_H

// 27 and its neighbours, in its order between 26 and 13.
void faulty_random(void);
// How many comparisons it makes.
enum { FAULTY_RANDOM = 256 * 3 + 3 * 121 - 1 + 3 * 6 + 3 + 200 + 3 };

#endif
