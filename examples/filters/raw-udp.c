/* Keeps UDP over IPv4. Raw: r1 is the packet itself and its length is not told, so the loader sees to 64 bytes at least. */
#include "packet.h"

u64 filter(const u8 *at) {
    return be16(at + 12) == TYPE_IPV4 && at[23] == PROTO_UDP;
}
