/* Keeps IPv4 packets with a time to live below 5. Raw, by the loads that eBPF took over from classic BPF: these find the packet by
   themselves and are given offsets alone. Bytes only. */
#include "packet.h"

u64 load_byte(const void *packet, u64 offset) asm("llvm.bpf.load.byte");

u64 filter(const void *packet) {
    return load_byte(packet, 12) == 8 && load_byte(packet, 13) == 0 && load_byte(packet, 22) < 5;
}
