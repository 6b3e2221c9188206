/* Keeps IPv4 packets that have more than 8 bytes of length for each hop that is left to them, and whose identification is a multiple
   of the hops left. Nothing guards the division: the bytecode's own rule for a divisor of zero is relied on. C has no such rule, so
   the two instructions are written out. */
#include "packet.h"

u64 filter(const struct packet *p) {
    const u8 *ip = network(p, TYPE_IPV4, 20);
    if (!ip) return 0;
    u64 hops = ip[8];
    u64 share = be16(ip + 2);
    u64 rest = be16(ip + 4);
    asm("%0 /= %1" : "+r"(share) : "r"(hops));
    asm("%0 %%= %1" : "+r"(rest) : "r"(hops));
    return share > 8 && rest == 0;
}
