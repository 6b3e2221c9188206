/* Keeps IPv4 from or to 192.0.2.0/24. */
#include "packet.h"

u64 filter(const struct packet *p) {
    const u8 *ip = network(p, TYPE_IPV4, 20);
    return ip && (be32(ip + 12) >> 8 == 0xc00002 || be32(ip + 16) >> 8 == 0xc00002);
}
