/* Keeps TCP over IPv4 whose sequence number is at or past 0xffff0000, counted as TCP counts: by the sign of the 32-bit difference. */
#include "packet.h"

u64 filter(const struct packet *p) {
    const u8 *tcp = behind_ipv4(p, PROTO_TCP, 20);
    return tcp && (s32)(be32(tcp + 4) - 0xffff0000) >= 0;
}
