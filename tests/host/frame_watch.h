// A frame's scratch, watched while the frame runs: a group of frame_test.c.
#ifndef FRAME_WATCH_H
#define FRAME_WATCH_H

// What the results can't show: that each lookup begins on cleared scratch and finds its answer at its own r3, and that its masks, those of
// the plaintext too, are in it. x86-64 Linux only.
void watched_scratch(void);

#endif
