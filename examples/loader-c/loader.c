/* A loader in C: reads a filter, has it translated, maps its page, and runs it over the packets of a pcap.
 *
 *   loader [--raw] [--standard] [--compact] [--model] [--perf-map] [--times N] FILTER PCAP
 *
 * FILTER is bytecode, eight bytes a slot. r1 of the filter is a struct packet, the addresses of the packet's first byte and of the byte behind
 * its last; with --raw it is the packet itself, with zeros behind it up to 64 bytes at least. --standard has it translated in standard mode,
 * --compact with compact constants. What the filter gives is the verdict: 0 turns the packet down, anything else keeps it. A filter is run as
 * it is: one that reads outside the packet or never ends takes the loader with it.
 *
 * --perf-map writes the page's map where perf looks for it ahead of the first packet, so that perf names the filter's slots; it stays there, for
 * perf reads it afterwards. --times N runs the filter over all packets N times, and prints the verdicts of the first: so a profiler sees it.
 *
 * --model, with --raw and --standard, runs each packet on the library's model of the bytecode too, and says how many verdicts differ: of the
 * packets, that is, on which the model does not stop, as it does where the filter reads behind a packet's end. */
#include <stdbool.h>
#include <stdio.h>
#include <stdlib.h>
#include <string.h>
#include <sys/mman.h>
#include <unistd.h>

#include "ndakoleem.h"

enum { PACKET_MAX = 262144, RAW_LEAST = 64, FILE_HEADER = 24, PACKET_HEADER = 16 };

typedef uint64_t (*page_function)(void *mbuff, size_t mbuff_length, uint8_t *packet, size_t packet_length, size_t, size_t);

/* r1 of a filter that is not raw. */
struct packet {
    const uint8_t *data;
    const uint8_t *data_end;
};

struct bytes {
    uint8_t *at;
    size_t length;
};

static _Noreturn void fail(const char *name, const char *why) {
    fprintf(stderr, "loader: %s: %s\n", name, why);
    exit(2);
}

static struct bytes read_file(const char *name) {
    FILE *file = fopen(name, "rb");
    if (file == NULL) fail(name, "cannot be opened");
    struct bytes read = {malloc(1), 0};
    size_t room = 1, more;
    while (read.at != NULL && (more = fread(read.at + read.length, 1, room - read.length, file)) > 0) {
        read.length += more;
        if (read.length == room) read.at = realloc(read.at, room *= 2);
    }
    if (read.at == NULL) fail(name, "there is no memory for it");
    if (ferror(file)) fail(name, "cannot be read");
    fclose(file);
    return read;
}

/* The helpers that a filter may call.
 * 1: is the IPv4 address a subscriber's? Here, the addresses whose last byte is a multiple of 7. */
static NDAKOLEEM_HELPER uint64_t is_subscribed(uint64_t address) {
    return (address & 0xff) % 7 == 0;
}

/* 2: five numbers mixed into 32 bits. */
static NDAKOLEEM_HELPER uint64_t mix(uint64_t a, uint64_t b, uint64_t c, uint64_t d, uint64_t e) {
    uint64_t sum = (((a * 31 + b) * 31 + c) * 31 + d) * 31 + e;
    return (sum >> 32) ^ (sum & 0xffffffff);
}

static const uint32_t helper_ids[] = {1, 2};
enum { HELPERS = sizeof helper_ids / sizeof helper_ids[0] };

static const uint64_t *helper_addresses(void) {
    static uint64_t addresses[HELPERS];
    addresses[0] = (uint64_t)is_subscribed;
    addresses[1] = (uint64_t)mix;
    return addresses;
}

/* Where perf looks for it: the kernel's tools/perf/Documentation/jit-interface.txt fixes the name. What is there already may belong to
 * somebody else, or be a link: it is not written to. */
static void write_map(const char *map, size_t length) {
    char name[64];
    snprintf(name, sizeof name, "/tmp/perf-%ld.map", (long)getpid());
    remove(name);
    FILE *file = fopen(name, "wx");
    bool written = file != NULL && fwrite(map, 1, length, file) == length;
    if (file != NULL && fclose(file) != 0) written = false;
    if (!written) fail(name, "cannot be written");
}

/* Room for any page; made before the translation, since a map says where the page stands. */
static void *mapping(const char *name) {
    void *page = mmap(NULL, NDAKOLEEM_CODE_ENOUGH, PROT_READ | PROT_WRITE, MAP_PRIVATE | MAP_ANONYMOUS, -1, 0);
    if (page == MAP_FAILED) fail(name, "its page cannot be mapped");
    return page;
}

/* A filter, and where it was read from. */
struct filter {
    const char *name;
    struct bytes program;
};

/* A refusal ends the program with its sentence. */
static _Noreturn void refuse(const struct filter *filter, uint8_t number, size_t slot) {
    char sentence[NDAKOLEEM_SENTENCE_ENOUGH];
    size_t length = ndakoleem_sentence(filter->program.at, filter->program.length, number, slot, sentence, sizeof sentence);
    fflush(stdout);
    fprintf(stderr, "loader: %s is refused: %.*s\n", filter->name, (int)length, sentence);
    exit(1);
}

/* The filter's code in a mapping of its own, executable and no longer writable. */
static page_function load(const struct filter *filter, struct ndakoleem_flags flags, bool perf_map) {
    static struct ndakoleem_memory memory;
    static char map[NDAKOLEEM_MAP_ENOUGH];
    struct ndakoleem_buffers lent = ndakoleem_lend(&memory);
    const char *name = filter->name;
    void *page = mapping(name);
    struct ndakoleem_mapped done = ndakoleem_translate_mapped_into(
        filter->program.at, filter->program.length, flags, helper_ids, HELPERS, helper_addresses(), HELPERS, &lent,
        (uint64_t)page, map, sizeof map);
    if (done.number != NDAKOLEEM_ACCEPTED) refuse(filter, done.number, done.slot);
    printf("%s: %zu slots, %zu bytes of code\n", name, filter->program.length / 8, done.length);
    memcpy(page, memory.code, done.length);
    if (mprotect(page, NDAKOLEEM_CODE_ENOUGH, PROT_READ | PROT_EXEC) != 0) fail(name, "its page cannot be made executable");
    if (perf_map) write_map(map, done.text);
    return (page_function)page;
}

/* A raw page has the second argument in r2, as the model has the packet's length there. */
static bool keeps(page_function page, bool raw, const uint8_t *data, size_t length) {
    static uint8_t buffer[PACKET_MAX + RAW_LEAST];
    memset(buffer + length, 0, RAW_LEAST);
    memcpy(buffer, data, length);
    struct packet packet = {buffer, buffer + length};
    return page(raw ? NULL : &packet, raw ? length : sizeof packet, buffer, length, 0, 0) != 0;
}

/* A filter whose packets are run on the model too, and what came of it. */
struct comparison {
    const struct filter *filter;
    size_t differ, stopped;
};

static void compare(struct comparison *model, const uint8_t *data, size_t length, bool keep) {
    static struct ndakoleem_run_memory memory;
    struct bytes program = model->filter->program;
    struct ndakoleem_ran ran = ndakoleem_run_packet_into(
        program.at, program.length, helper_ids, HELPERS, helper_addresses(), HELPERS, data, length, &memory);
    if (ran.number != NDAKOLEEM_ACCEPTED) refuse(model->filter, ran.number, ran.slot);
    if (ran.ended != NDAKOLEEM_ENDED_EXIT) model->stopped += 1;
    else if ((ran.r0 != 0) != keep) model->differ += 1;
}

static uint32_t number_at(const uint8_t *at, bool swapped) {
    uint32_t low_first = at[0] | (uint32_t)at[1] << 8 | (uint32_t)at[2] << 16 | (uint32_t)at[3] << 24;
    return swapped ? __builtin_bswap32(low_first) : low_first;
}

/* Once over a pcap's packets, which are numbered from 1, as tcpdump and tshark number them. */
static void run_once(page_function page, bool raw, const char *name, struct bytes pcap, bool shown, struct comparison *model) {
    uint32_t magic = pcap.length < FILE_HEADER ? 0 : number_at(pcap.at, false);
    bool swapped = magic == 0xd4c3b2a1 || magic == 0x4d3cb2a1;
    if (!swapped && magic != 0xa1b2c3d4 && magic != 0xa1b23c4d) fail(name, "is no pcap");
    size_t at = FILE_HEADER, packets = 0, kept = 0, bytes = 0;
    if (shown) printf("packet  length  verdict\n");
    while (pcap.length - at >= PACKET_HEADER) {
        size_t length = number_at(pcap.at + at + 8, swapped);
        at += PACKET_HEADER;
        if (length > PACKET_MAX || length > pcap.length - at) fail(name, "ends inside a packet, or has one that is too long");
        bool keep = keeps(page, raw, pcap.at + at, length);
        if (shown && model != NULL) compare(model, pcap.at + at, length, keep);
        at += length;
        packets += 1;
        kept += keep;
        bytes += keep ? length : 0;
        if (shown) printf("%6zu  %6zu  %s\n", packets, length, keep ? "kept" : "-");
    }
    if (at != pcap.length) fail(name, "ends inside a packet's header");
    if (shown) printf("kept %zu of %zu packets, %zu bytes\n", kept, packets, bytes);
    if (shown && model != NULL) printf("on the model %zu verdicts differ, and %zu packets stop it\n", model->differ, model->stopped);
}

static void run(page_function page, bool raw, const char *name, size_t times, struct comparison *model) {
    struct bytes pcap = read_file(name);
    for (size_t time = 0; time < times; time += 1) run_once(page, raw, name, pcap, time == 0, model);
    free(pcap.at);
}

/* How often: a number from 1 up, of nine digits at the most. 0 for any other word. */
static size_t times_of(const char *word) {
    size_t digits = strspn(word, "0123456789");
    return digits > 9 || word[digits] != '\0' ? 0 : strtoul(word, NULL, 10);
}

int main(int count, char **words) {
    struct ndakoleem_flags flags = {.use_mbuff = true};
    bool perf_map = false, with_model = false;
    size_t times = 1;
    int at = 1;
    for (; at < count; at += 1) {
        if (strcmp(words[at], "--raw") == 0) flags.use_mbuff = false;
        else if (strcmp(words[at], "--standard") == 0) flags.standard = true;
        else if (strcmp(words[at], "--compact") == 0) flags.compact = true;
        else if (strcmp(words[at], "--model") == 0) with_model = true;
        else if (strcmp(words[at], "--perf-map") == 0) perf_map = true;
        else if (strcmp(words[at], "--times") == 0 && at + 1 < count && (times = times_of(words[at + 1])) > 0) at += 1;
        else break;
    }
    /* The model is of standard mode, and r1 is the packet. */
    bool modelled = !flags.use_mbuff && flags.standard;
    if (count - at != 2 || times == 0 || (with_model && !modelled)) {
        fprintf(stderr, "usage: loader [--raw] [--standard] [--compact] [--model] [--perf-map] [--times N] FILTER PCAP\n");
        return 2;
    }
    struct filter filter = {words[at], read_file(words[at])};
    struct comparison model = {&filter, 0, 0};
    run(load(&filter, flags, perf_map), !flags.use_mbuff, words[at + 1], times, with_model ? &model : NULL);
    free(filter.program.at);
    return 0;
}
