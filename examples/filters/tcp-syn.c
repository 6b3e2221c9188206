/* Keeps the first segment of a TCP connection over IPv4: SYN set, ACK not. */
#include "packet.h"

u64 filter(const struct packet *p) {
    const u8 *tcp = behind_ipv4(p, PROTO_TCP, 14);
    return tcp && (tcp[13] & 0x12) == 0x02;
}
