/* Keeps one TCP or UDP flow over IPv4 in four, by a hash of five numbers that helper 2 computes. Both directions have hashes of their
   own. */
#include "packet.h"

static u64 (*const mix)(u64 from, u64 to, u64 protocol, u64 source, u64 destination) = (void *)2;

u64 filter(const struct packet *p) {
    const u8 *ip = network(p, TYPE_IPV4, 20);
    if (!ip || (be16(ip + 6) & 0x1fff)) return 0;
    if (ip[9] != PROTO_TCP && ip[9] != PROTO_UDP) return 0;
    const u8 *ports = ip + (ip[0] & 15) * 4;
    if (ends_before(p, ports, 4)) return 0;
    return mix(be32(ip + 12), be32(ip + 16), ip[9], be16(ports), be16(ports + 2)) % 4 == 1;
}
