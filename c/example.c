/* What a C program does with the library: the numbers of a packet in both readings, a packet written so that an old
 * reader is not misled, a call that is refused, a summary, and a packet that comes in portions. tools/foreign builds and runs it and compares what it prints with
 * c/example.stdout. */
#include <giunchemis.h>

#include <inttypes.h>
#include <stdio.h>
#include <string.h>

/* The 24 bytes of docs/RULES.md's dump: one loss block, of SSRC 7, from 10 up to 14, two runs of two ones. */
static const uint8_t sample[24] = {
    0x80, 0xcf, 0x00, 0x05, 0x00, 0x00, 0x00, 0x01, 0x01, 0x00, 0x00, 0x03,
    0x00, 0x00, 0x00, 0x07, 0x00, 0x0a, 0x00, 0x0e, 0x40, 0x02, 0x40, 0x02,
};

/* A Statistics Summary block: lost packets and TTL are there, duplicates and jitter are not, whatever their bytes are. */
static const uint8_t summary[48] = {
    0x80, 0xcf, 0x00, 0x0b, 0x00, 0x00, 0x00, 0x01, 0x06, 0x88, 0x00, 0x09,
    0x00, 0x00, 0x00, 0x07, 0x00, 0x0a, 0x00, 0x0e, 0x00, 0x00, 0x00, 0x03, 0x00, 0x00, 0x00, 0x05,
    0x00, 0x00, 0x00, 0x01, 0x00, 0x00, 0x00, 0x5a, 0x00, 0x00, 0x00, 0x0c, 0x00, 0x00, 0x00, 0x07,
    0x3c, 0x40, 0x3e, 0x01,
};

/* The loss block as a job list: the header record (sender 1, no padding), and a record of kind 1. All numbers are
 * little-endian: the body's length (4), the kind (2), the body. */
static const uint8_t job_list[] = {
    6, 0, 0, 0, 0, 0,   1, 0, 0, 0,   0, 0,
    14, 0, 0, 0, 1, 0,  7, 0, 0, 0,   10, 0,   14, 0,   0, 0,   0x02, 0x40,   0x02, 0x40,
};

/* Prints a refusal, and says that there was one. */
static int refused(const char *what, xr_flat a) {
    if (a.code == 0)
        return 0;
    printf("%s: refused %" PRIu32 " %" PRIu64 " %" PRIu64 "\n", what, a.code, a.first, a.second);
    return 1;
}

/* Goes through a packet's blocks in one reading, each at the cost of one, and prints the numbers of the loss blocks. */
static int show(const char *name, uint8_t r, const uint8_t *packet, size_t packet_len) {
    xr_flat parsed = xr_parse(r, packet, packet_len);
    if (refused(name, parsed))
        return 1;
    printf("reading %s: blocks %" PRIu64 " sender %" PRIu64 "\n", name, parsed.first, parsed.second);

    size_t at = 8;
    for (uint64_t k = 0; k < parsed.first; k++) {
        xr_flat_block block = xr_block_at(r, packet, packet_len, at);
        const uint8_t *view = packet + at;
        printf("block %" PRIu64 " type %u length %" PRIu32 "\n", k, (unsigned)block.kind, block.length);
        if (block.kind == XR_LOSS) {
            uint16_t numbers[64];
            xr_flat_fields f = xr_fields_view(r, XR_LOSS, view, block.size);
            xr_flat listed = xr_numbers_view(r, XR_LOSS, view, block.size, numbers, 64);
            if (f.code != 0 || refused("numbers", listed))
                return 1;
            printf("ssrc %" PRIu32 " begin %u end %u thinning %u\nnumbers", f.ssrc, (unsigned)f.begin,
                (unsigned)f.end, (unsigned)f.thinning);
            for (uint64_t i = 0; i < listed.first; i++)
                printf(" %u", (unsigned)numbers[i]);
            printf("\n");
        }
        at = block.next;
    }
    return 0;
}

/* Reads a packet that comes some bytes at a time, as from a serial line, and prints each number as soon as its bytes are
 * there. The packet itself is not kept: `state` is all that goes from call to call. */
static int follow(const uint8_t *packet, size_t packet_len, size_t size) {
    static uint64_t tags[XR_MOST_EVENTS], values[XR_MOST_EVENTS], sums[3 * XR_MOST_EVENTS]; /* room for any byte's events */
    static uint16_t numbers[XR_MOST_EVENTS];
    xr_portions state = xr_portions_start();

    for (size_t at = 0; at < packet_len; at += size) {
        size_t given = packet_len - at < size ? packet_len - at : size;
        xr_flat_followed a = xr_follow(state, packet + at, given, tags, XR_MOST_EVENTS, numbers, XR_MOST_EVENTS, values,
            XR_MOST_EVENTS, sums, 3 * XR_MOST_EVENTS);
        for (uint64_t i = 0; i < a.events; i++) {
            if ((tags[i] & 255) == 4)
                printf("byte %zu: number %u\n", at + given, (unsigned)numbers[i]);
            if ((tags[i] & 255) == 9 && (tags[i] >> 8 & XR_HAS_LOST))
                printf("byte %zu: lost %" PRIu64 "\n", at + given, sums[3 * i] >> 32);
            if ((tags[i] & 255) == 8)
                printf("byte %zu: end\n", at + given);
        }
        if (a.code != 0) {
            printf("in portions: refused %" PRIu32 " %" PRIu64 " %" PRIu64 "\n", a.code, a.first, a.second);
            return 1;
        }
        state = a.state;
    }
    return 0;
}

int main(void) {
    if (show("standard", XR_STANDARD, sample, sizeof sample) || show("crate", XR_CRATE, sample, sizeof sample))
        return 1;

    /* Ask first how long the packet is: no room is refused with the bytes that are needed. */
    uint8_t packet[64];
    memset(packet, 0xee, sizeof packet);
    xr_flat needed = xr_write_careful(job_list, sizeof job_list, packet, 0);
    if (!refused("careful writing into no room", needed) || needed.code != XR_NO_ROOM || packet[0] != 0xee)
        return 1;
    xr_flat wrote = xr_write_careful(job_list, sizeof job_list, packet, sizeof packet);
    if (refused("careful writing", wrote))
        return 1;
    printf("careful writing: %" PRIu64 " bytes", wrote.first);
    for (uint64_t i = 0; i < wrote.first; i++)
        printf("%s%02x", i % 4 == 0 ? " " : "", packet[i]);
    printf("\n");
    if (show("standard", XR_STANDARD, packet, wrote.first) || show("crate", XR_CRATE, packet, wrote.first))
        return 1;

    /* A refused call: the sample has one block, so there is no block 3. */
    uint16_t kept[2] = {7, 7};
    if (!refused("block 3", xr_numbers(XR_STANDARD, sample, sizeof sample, 3, XR_LOSS, kept, 2)))
        return 1;
    printf("the lent list still holds %u %u\n", (unsigned)kept[0], (unsigned)kept[1]);

    /* A summary: a number is there where its flag says so. In this one lost packets and TTL are. */
    xr_flat_summary s = xr_summary(XR_STANDARD, summary, sizeof summary, 0);
    if (s.code != 0)
        return 1;
    if (s.flags & XR_HAS_LOST)
        printf("summary: lost %" PRIu32 "\n", s.lost);
    if (!(s.flags & XR_HAS_JITTER))
        printf("summary: no jitter\n");
    if ((s.flags >> 3 & 3) == 1)
        printf("summary: ttl %u to %u\n", (unsigned)s.hops_min, (unsigned)s.hops_max);
    s = xr_summary(XR_CRATE, summary, sizeof summary, 0);
    printf("summary in the crate's reading: refused %" PRIu32 " %" PRIu64 " %" PRIu64 "\n", s.code, s.first, s.second);
    if (follow(summary, sizeof summary, 16))
        return 1;

    /* The same packet in portions of two bytes; and one whose last block is cut short by its own length. */
    uint8_t bad[sizeof sample];
    memcpy(bad, sample, sizeof bad);
    bad[11] = 1;
    if (follow(sample, sizeof sample, 2) || !follow(bad, sizeof bad, 24))
        return 1;
    return 0;
}
