/* Keeps frames with VLAN 100 in their outer tag, whichever of the three tag types it has. */
#include "packet.h"

u64 filter(const struct packet *p) {
    const u8 *at = p->data;
    if (ends_before(p, at, 16)) return 0;
    u16 type = be16(at + 12);
    if (type != 0x8100 && type != 0x88a8 && type != 0x9100) return 0;
    return (be16(at + 14) & 0x0fff) == 100;
}
