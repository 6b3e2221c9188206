/* Keeps frames whose first six bytes hold the same values as the next six, in any order. Both this function and the one that it calls
   have a table of sixteen counters on the stack. Compilers count on a frame of its own for each function; the translated page has one
   for all (A20 in docs/DIFFERENCES.md), so the called function writes over its caller's table and other packets are kept than this
   says. */
#include "packet.h"

LOCAL u64 weight(const u8 *at);

u64 filter(const struct packet *p) {
    u8 count[16] = {0};
    const u8 *at = p->data;
    if (ends_before(p, at, ETHERNET)) return 0;
#pragma clang loop unroll(disable)
    for (int i = 0; i < 6; i++) count[at[i] & 15]++;
    if (weight(at) != weight(at + 6)) return 0;
#pragma clang loop unroll(disable)
    for (int i = 6; i < 12; i++) count[at[i] & 15]--;
    u8 left = 0;
#pragma clang loop unroll(disable)
    for (int i = 0; i < 16; i++) left |= count[i];
    return left == 0;
}

LOCAL u64 weight(const u8 *at) {
    u8 count[16] = {0};
    u64 sum = 0;
#pragma clang loop unroll(disable)
    for (int i = 0; i < 6; i++) count[at[i] >> 4]++;
#pragma clang loop unroll(disable)
    for (int i = 0; i < 16; i++) sum += count[i] * count[i] * i;
    return sum;
}
