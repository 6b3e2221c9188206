/* Keeps IPv4 fragments: those with more to come and those that are not the first. */
#include "packet.h"

u64 filter(const struct packet *p) {
    const u8 *ip = network(p, TYPE_IPV4, 20);
    return ip && (be16(ip + 6) & 0x3fff);
}
