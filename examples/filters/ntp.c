/* Keeps NTP over IPv4 whose transmit time, a 64-bit number with the high byte first, is past 2024-01-01 00:00:00.5. */
#include "packet.h"

u64 filter(const struct packet *p) {
    const u8 *udp = behind_ipv4(p, PROTO_UDP, 8 + 48);
    if (!udp || (be16(udp) != 123 && be16(udp + 2) != 123)) return 0;
    return be64(udp + 48) > 0xe93c7f0080000000;
}
