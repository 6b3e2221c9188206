/* Keeps one IPv6 flow in three: the interface parts of the two addresses are mixed, and 32 bits of the mixture are scaled to 0, 1 or 2.
   Compiled for version 3 these bits are taken by a 32-bit move. The translated page keeps the upper half there (A1 in
   docs/DIFFERENCES.md), so it keeps other packets than this says; compiled for version 1, or translated in standard mode, it does not. */
#include "packet.h"

LOCAL u64 scaled(u32 number, u64 classes);

u64 filter(const struct packet *p) {
    const u8 *ip6 = network(p, TYPE_IPV6, 40);
    if (!ip6) return 0;
    u64 mixture = (be64(ip6 + 16) + be64(ip6 + 32)) * 0x9e3779b97f4a7c15;
    return scaled(mixture >> 7, 3) == 1;
}

LOCAL u64 scaled(u32 number, u64 classes) {
    return (number * classes) >> 32;
}
