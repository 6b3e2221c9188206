/* Keeps DNS questions over IPv4 and UDP whose first name ends in the top-level label "example". The labels are walked in a loop. */
#include "packet.h"

#define HEADER 12
#define LABELS 8

INLINE int is_example(const u8 *label) {
    return label[0] == 7 && (be64(label) & 0xffffffffffffff) == 0x6578616d706c65 && label[8] == 0;
}

u64 filter(const struct packet *p) {
    const u8 *udp = behind_ipv4(p, PROTO_UDP, 8 + HEADER);
    if (!udp || be16(udp + 2) != 53 || (udp[10] & 0x80)) return 0;
    const u8 *label = udp + 8 + HEADER;
    for (int i = 0; i < LABELS; i++) {
        if (ends_before(p, label, 9)) return 0;
        if (is_example(label)) return 1;
        if (label[0] == 0 || label[0] > 63) return 0;
        label += 1 + label[0];
    }
    return 0;
}
