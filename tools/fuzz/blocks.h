/* Which basic blocks of the library a run reaches. The library is the proved code as it ships, without any mark of a fuzzer in it, so each
 * block's first byte is a breakpoint until it is reached: the trap marks the block in a counter that libFuzzer reads, and puts the byte
 * back. A block costs one trap in all, and the code then runs as it was built. */
#ifndef BLOCKS_H
#define BLOCKS_H

/* Sets the breakpoints that the file named by SIGLA_BLOCKS lists (blocks.py); none where it is not set. */
void watch_blocks(void);

/* Prints how many were reached and, by function, how many are left; those that are left to the file that SIGLA_LEFT names, if it is set. */
void print_blocks(void);

#endif
