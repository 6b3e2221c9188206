/* Keeps IPv6 from or to 2001:db8:5::/48. The prefix is a 64-bit constant, which takes a wide load. */
#include "packet.h"

INLINE int is_inside(const u8 *address) {
    return (be64(address) & 0xffffffffffff0000) == 0x20010db800050000;
}

u64 filter(const struct packet *p) {
    const u8 *ip6 = network(p, TYPE_IPV6, 40);
    return ip6 && (is_inside(ip6 + 8) || is_inside(ip6 + 24));
}
