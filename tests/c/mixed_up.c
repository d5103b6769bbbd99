/*
 * A program that must compile as it is, and with MIXED_UP from 1 to 8 must not: once unpacked, what vetting gives is not taken for
 * what marking gives, nor the other way round.
 */
#include "marking.h"

int main(void) {
    struct marking_vetted vetted = marking_vet_unpack(0);
    struct marking_marked marked = marking_mark_unpack(0);
#if MIXED_UP == 1 /* a mark's refusal from vet's struct */
    marked = vetted;
#elif MIXED_UP == 2 /* vet's struct from marking's */
    vetted = marked;
#elif MIXED_UP == 3 /* a mark from vet's struct */
    return (int)vetted.mark;
#elif MIXED_UP == 4 /* a verdict from marking's struct */
    return (int)marked.verdict;
#elif MIXED_UP == 5 /* an unpacked value as a number to unpack */
    marked = marking_mark_unpack(vetted);
#elif MIXED_UP == 6 /* a field straight from the bits */
    return (int)marking_mark_refusal(marking_vet(0, 0, 0, 0));
#elif MIXED_UP == 7 /* letters taken from vet's struct */
    return (int)vetted.taken;
#elif MIXED_UP == 8 /* a length of vet's from marking's struct */
    return (int)marked.text_len;
#endif
    return (int)vetted.refusal + (int)marked.refusal + (int)marked.taken;
}
