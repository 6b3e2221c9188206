/* Keeps one IPv4 conversation in ten, both directions alike: the two addresses are mixed and divided by 10. */
#include "packet.h"

u64 filter(const struct packet *p) {
    const u8 *ip = network(p, TYPE_IPV4, 20);
    return ip && (be32(ip + 12) ^ be32(ip + 16)) % 10 == 3;
}
