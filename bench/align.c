/* Stands before the proved code in the bench's program, and before its peer that reads digits, so that the first function of each starts
 * at an address that 64 divides, whatever comes before: loops are read quicker at some addresses than at others, and a change of the bench
 * must not change its times. The proved readers of digits by themselves are aligned in their archive (Makefile). */
__asm__(".text\n"
        ".balign 64\n"
        ".skip 64\n");
