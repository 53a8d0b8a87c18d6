// Frames in buffers that only the system can lend: groups of frame_test.c.
#ifndef FRAME_BUFFERS_H
#define FRAME_BUFFERS_H

// Numbers of random bytes and lengths of scratch that come into range, or fall out of it, when they are cut to 8, 16 or 32 bits.
void long_buffers(void);

// Each buffer at the beginning or at the end of a page that has no neighbours: the system stops a call that reads or writes beside it. What
// is only read can't be written, and if the frame is refused, nothing can.
void ends_of_pages(void);

#endif
