/* Keeps UDP and TCP over IPv4 or IPv6 with port 8080 on either side. The port test and the IPv6 part are functions of their own,
   which the filter calls, one of them from the other. */
#include "packet.h"

LOCAL u64 has_port(const u8 *at, const u8 *end);
LOCAL u64 over_ipv6(const u8 *at, const u8 *end);

u64 filter(const struct packet *p) {
    const u8 *at = p->data, *end = p->data_end;
    if (at + ETHERNET + 20 > end) return 0;
    if (be16(at + 12) == TYPE_IPV6) return over_ipv6(at, end);
    if (be16(at + 12) != TYPE_IPV4 || (be16(at + 20) & 0x1fff)) return 0;
    if (at[23] != PROTO_TCP && at[23] != PROTO_UDP) return 0;
    return has_port(at + ETHERNET + (at[14] & 15) * 4, end);
}

LOCAL u64 over_ipv6(const u8 *at, const u8 *end) {
    if (at + ETHERNET + 40 > end) return 0;
    if (at[20] != PROTO_TCP && at[20] != PROTO_UDP) return 0;
    return has_port(at + ETHERNET + 40, end);
}

LOCAL u64 has_port(const u8 *at, const u8 *end) {
    if (at + 4 > end) return 0;
    return be16(at) == 8080 || be16(at + 2) == 8080;
}
