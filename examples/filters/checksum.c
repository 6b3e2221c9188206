/* Keeps IPv4 packets whose header checksum is wrong. The header's 10 to 30 halves are added up in a loop. */
#include "packet.h"

u64 filter(const struct packet *p) {
    const u8 *ip = network(p, TYPE_IPV4, 20);
    if (!ip) return 0;
    u32 halves = (ip[0] & 15) * 2;
    u32 sum = 0;
#pragma clang loop unroll(disable)
    for (u32 i = 0; i < 30; i++) {
        if (i >= halves) break;
        if (ends_before(p, ip, 2)) return 0;
        sum += be16(ip);
        ip += 2;
    }
    sum = (sum & 0xffff) + (sum >> 16);
    return ((sum + (sum >> 16)) & 0xffff) != 0xffff;
}
