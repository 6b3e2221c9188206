/* Keeps IPv4 packets without options whose header checksum is right. Helper 28 adds up the header, as the Linux kernel's helper of that
   number does (bpf_csum_diff). */
#include "packet.h"

static u64 (*const csum_diff)(const void *from, u32 from_size, const void *to, u32 to_size, u32 seed) = (void *)28;

u64 filter(const struct packet *p) {
    const u8 *ip = network(p, TYPE_IPV4, 20);
    if (!ip || ip[0] != 0x45) return 0;
    u64 sum = csum_diff(0, 0, ip, 20, 0) & 0xffffffff;
    sum = (sum & 0xffff) + (sum >> 16);
    sum = (sum & 0xffff) + (sum >> 16);
    return sum == 0xffff;
}
