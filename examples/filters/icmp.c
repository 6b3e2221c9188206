/* Keeps ICMP echo requests over IPv4 and the messages "destination unreachable". */
#include "packet.h"

u64 filter(const struct packet *p) {
    const u8 *icmp = behind_ipv4(p, PROTO_ICMP, 1);
    return icmp && (icmp[0] == 8 || icmp[0] == 3);
}
