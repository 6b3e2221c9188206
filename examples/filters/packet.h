/* What the filters share: how a packet is handed over, and how its headers are reached. The entry of a filter is its first function
   and is called `filter`. Every reach into the packet is checked against its end first, so that no packet, however short, is read
   outside. */
#pragma once

typedef unsigned char u8;
typedef unsigned short u16;
typedef unsigned int u32;
typedef int s32;
typedef unsigned long long u64;

/* r1 of a filter with the flag use_mbuff. */
struct packet {
    const u8 *data;
    const u8 *data_end;
};

#define INLINE static inline __attribute__((always_inline))
#define LOCAL static __attribute__((noinline))

#define ETHERNET 14
#define TYPE_IPV4 0x0800
#define TYPE_ARP 0x0806
#define TYPE_IPV6 0x86dd
#define PROTO_ICMP 1
#define PROTO_TCP 6
#define PROTO_UDP 17

/* Packets carry numbers with the high byte first, at any address. */
INLINE u16 be16(const u8 *at) {
    return __builtin_bswap16(*(const u16 *)at);
}

INLINE u32 be32(const u8 *at) {
    return __builtin_bswap32(*(const u32 *)at);
}

INLINE u64 be64(const u8 *at) {
    return __builtin_bswap64(*(const u64 *)at);
}

INLINE int ends_before(const struct packet *p, const u8 *at, u32 length) {
    return at + length > p->data_end;
}

/* The header behind Ethernet's, of the type wanted and with at least `length` bytes, or 0. */
INLINE const u8 *network(const struct packet *p, u16 type, u32 length) {
    const u8 *at = p->data;
    if (ends_before(p, at, ETHERNET + length) || be16(at + 12) != type) return 0;
    return at + ETHERNET;
}

/* The header behind IPv4's, of the protocol wanted and with at least `length` bytes, or 0. Only a first fragment has one. */
INLINE const u8 *behind_ipv4(const struct packet *p, u8 protocol, u32 length) {
    const u8 *ip = network(p, TYPE_IPV4, 20);
    if (!ip || ip[9] != protocol || (be16(ip + 6) & 0x1fff)) return 0;
    const u8 *at = ip + (ip[0] & 15) * 4;
    return ends_before(p, at, length) ? 0 : at;
}
