/* Keeps frames to or from the station 02:00:5e:10:00:07. The address is compared as one 48-bit number. */
#include "packet.h"

#define STATION 0x02005e100007

u64 filter(const struct packet *p) {
    if (ends_before(p, p->data, ETHERNET)) return 0;
    return be64(p->data) >> 16 == STATION || (be64(p->data + 6) >> 16) == STATION;
}
