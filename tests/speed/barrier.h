// The barrier of the C that is measured against, which -DGUARDED puts in: the compiler does not look through it, so it joins nothing
// across it. It takes no instruction.
#ifndef BARRIER_H
#define BARRIER_H

#ifdef GUARDED
#define BARRIER(value) __asm__ volatile("" : "+r"(value))
#else
#define BARRIER(value) (void)0
#endif

#endif
