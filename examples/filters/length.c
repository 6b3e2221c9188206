/* Keeps frames of 512 bytes and more. */
#include "packet.h"

u64 filter(const struct packet *p) {
    return p->data + 512 <= p->data_end;
}
