/* Keeps IPv4 packets whose identification, as a signed 16-bit number, is below -20 when divided by the hops left and one more. For
   version 4 of the bytecode this is a move that extends by the sign and a signed division. The translator takes both for their unsigned
   forms (A6 and A4 in docs/DIFFERENCES.md), so the page keeps other packets than this says. The byte swaps are written out: left to the
   compiler they would be version 4's, which the translator refuses. */
#include "packet.h"

INLINE u64 swapped(const u8 *at) {
    u64 number = *(const u16 *)at;
    asm("%0 = be16 %0" : "+r"(number));
    return number;
}

u64 filter(const struct packet *p) {
    const u8 *at = p->data;
    if (ends_before(p, at, ETHERNET + 20) || swapped(at + 12) != TYPE_IPV4) return 0;
    return (short)swapped(at + 18) / (long long)(at[22] + 1) < -20;
}
