/* Keeps IPv4 packets to 198.51.100.7. Raw, by the loads from classic BPF, of two and four bytes. Classic BPF reads these with the
   high byte first; the translated page does not (A25 in docs/DIFFERENCES.md), so it keeps other packets than this says. */
#include "packet.h"

u64 load_half(const void *packet, u64 offset) asm("llvm.bpf.load.half");
u64 load_word(const void *packet, u64 offset) asm("llvm.bpf.load.word");

u64 filter(const void *packet) {
    return load_half(packet, 12) == TYPE_IPV4 && load_word(packet, 30) == 0xc6336407;
}
