/* Keeps TCP over IPv6, also behind up to eight headers of options, routing or fragments. */
#include "packet.h"

u64 filter(const struct packet *p) {
    const u8 *at = network(p, TYPE_IPV6, 40);
    if (!at) return 0;
    u8 next = at[6];
    at += 40;
#pragma clang loop unroll(disable)
    for (int i = 0; i < 8; i++) {
        if (next != 0 && next != 43 && next != 44 && next != 60) break;
        if (ends_before(p, at, 8)) return 0;
        next = at[0];
        at += at[1] * 8 + 8;
    }
    return next == PROTO_TCP;
}
