/* Keeps IPv4 whose source or destination the loader knows as a subscriber's: helper 1 is asked with the address. */
#include "packet.h"

static u64 (*const is_subscribed)(u32 address) = (void *)1;

u64 filter(const struct packet *p) {
    const u8 *ip = network(p, TYPE_IPV4, 20);
    if (!ip) return 0;
    return is_subscribed(be32(ip + 12)) || is_subscribed(be32(ip + 16));
}
