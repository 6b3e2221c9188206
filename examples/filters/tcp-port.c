/* Keeps TCP with port 443 on either side, over IPv4 (with options too) and over IPv6. */
#include "packet.h"

INLINE int is_wanted(const u8 *ports) {
    return be16(ports) == 443 || be16(ports + 2) == 443;
}

u64 filter(const struct packet *p) {
    const u8 *tcp = behind_ipv4(p, PROTO_TCP, 4);
    if (tcp) return is_wanted(tcp);
    const u8 *ip6 = network(p, TYPE_IPV6, 44);
    return ip6 && ip6[6] == PROTO_TCP && is_wanted(ip6 + 40);
}
