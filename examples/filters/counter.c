/* Keeps every IPv4 packet, and counts it in the eight bytes behind the packet's two pointers by an atomic addition, which the
   translator refuses. */
#include "packet.h"

struct counted {
    struct packet packet;
    u64 count;
};

u64 filter(struct counted *c) {
    if (!network(&c->packet, TYPE_IPV4, 20)) return 0;
    __sync_fetch_and_add(&c->count, 1);
    return 1;
}
