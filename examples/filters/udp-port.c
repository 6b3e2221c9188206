/* Keeps UDP over IPv4 to the ports 5000 to 5999. */
#include "packet.h"

u64 filter(const struct packet *p) {
    const u8 *udp = behind_ipv4(p, PROTO_UDP, 8);
    return udp && be16(udp + 2) >= 5000 && be16(udp + 2) <= 5999;
}
