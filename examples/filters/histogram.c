/* Keeps frames in which some value of a byte's upper four bits fills more than a quarter of the first 64 bytes. The sixteen counters
   are on the stack. */
#include "packet.h"

u64 filter(const struct packet *p) {
    u8 count[16] = {0};
    const u8 *at = p->data;
    if (ends_before(p, at, 64)) return 0;
#pragma clang loop unroll(disable)
    for (int i = 0; i < 64; i++) count[at[i] >> 4]++;
    u8 most = 0;
    for (int i = 0; i < 16; i++) {
        if (count[i] > most) most = count[i];
    }
    return most > 16;
}
