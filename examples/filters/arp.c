/* Keeps ARP requests for 192.0.2.1. */
#include "packet.h"

u64 filter(const struct packet *p) {
    const u8 *arp = network(p, TYPE_ARP, 28);
    return arp && be16(arp + 6) == 1 && be32(arp + 24) == 0xc0000201;
}
