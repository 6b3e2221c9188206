/* Keeps one IPv4 conversation in sixteen, each direction for itself: the source is multiplied by a large odd number, the destination is
   added, and the upper four of the 32 bits have to be 5. */
#include "packet.h"

u64 filter(const struct packet *p) {
    const u8 *ip = network(p, TYPE_IPV4, 20);
    return ip && (be32(ip + 12) * 2654435761u + be32(ip + 16)) >> 28 == 5;
}
