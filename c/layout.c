/* That the C compiler lays the structs out as the library does (crates/flat/src, crates/states/src: #[repr(C)] on x86-64), and that the
 * numbers without a meaning have the answers that the header says. Compiled as C11 and as C++17, and run. */
#include <giunchemis.h>

#include <stdio.h>
#include <string.h>

#ifdef __cplusplus
#define HOLDS(fact) static_assert(fact, #fact)
#else
#define HOLDS(fact) _Static_assert(fact, #fact)
#endif

HOLDS(sizeof(size_t) == 8);

HOLDS(sizeof(xr_flat) == 24);
HOLDS(offsetof(xr_flat, code) == 0);
HOLDS(offsetof(xr_flat, first) == 8);
HOLDS(offsetof(xr_flat, second) == 16);

HOLDS(sizeof(xr_flat_fields) == 40);
HOLDS(offsetof(xr_flat_fields, code) == 0);
HOLDS(offsetof(xr_flat_fields, first) == 8);
HOLDS(offsetof(xr_flat_fields, second) == 16);
HOLDS(offsetof(xr_flat_fields, ssrc) == 24);
HOLDS(offsetof(xr_flat_fields, begin) == 28);
HOLDS(offsetof(xr_flat_fields, end) == 30);
HOLDS(offsetof(xr_flat_fields, thinning) == 32);

HOLDS(sizeof(xr_flat_stretch) == 64);
HOLDS(offsetof(xr_flat_stretch, code) == 0);
HOLDS(offsetof(xr_flat_stretch, first) == 8);
HOLDS(offsetof(xr_flat_stretch, second) == 16);
HOLDS(offsetof(xr_flat_stretch, word) == 24);
HOLDS(offsetof(xr_flat_stretch, place) == 32);
HOLDS(offsetof(xr_flat_stretch, position) == 40);
HOLDS(offsetof(xr_flat_stretch, taken) == 48);
HOLDS(offsetof(xr_flat_stretch, listed) == 56);

HOLDS(sizeof(xr_flat_block) == 24);
HOLDS(offsetof(xr_flat_block, next) == 0);
HOLDS(offsetof(xr_flat_block, size) == 8);
HOLDS(offsetof(xr_flat_block, length) == 16);
HOLDS(offsetof(xr_flat_block, kind) == 20);
HOLDS(offsetof(xr_flat_block, specific) == 21);

HOLDS(sizeof(xr_flat_summary) == 64);
HOLDS(offsetof(xr_flat_summary, code) == 0);
HOLDS(offsetof(xr_flat_summary, first) == 8);
HOLDS(offsetof(xr_flat_summary, second) == 16);
HOLDS(offsetof(xr_flat_summary, ssrc) == 24);
HOLDS(offsetof(xr_flat_summary, lost) == 28);
HOLDS(offsetof(xr_flat_summary, duplicates) == 32);
HOLDS(offsetof(xr_flat_summary, jitter_min) == 36);
HOLDS(offsetof(xr_flat_summary, jitter_max) == 40);
HOLDS(offsetof(xr_flat_summary, jitter_mean) == 44);
HOLDS(offsetof(xr_flat_summary, jitter_deviation) == 48);
HOLDS(offsetof(xr_flat_summary, begin) == 52);
HOLDS(offsetof(xr_flat_summary, end) == 54);
HOLDS(offsetof(xr_flat_summary, flags) == 56);
HOLDS(offsetof(xr_flat_summary, hops_min) == 57);
HOLDS(offsetof(xr_flat_summary, hops_max) == 58);
HOLDS(offsetof(xr_flat_summary, hops_mean) == 59);
HOLDS(offsetof(xr_flat_summary, hops_deviation) == 60);

HOLDS(sizeof(xr_kept) == 32);
HOLDS(offsetof(xr_kept, first) == 0);
HOLDS(offsetof(xr_kept, second) == 8);
HOLDS(offsetof(xr_kept, third) == 16);
HOLDS(offsetof(xr_kept, fourth) == 24);

HOLDS(sizeof(xr_known) == 56);
HOLDS(offsetof(xr_known, announced) == 0);
HOLDS(offsetof(xr_known, block) == 4);
HOLDS(offsetof(xr_known, whose) == 8);
HOLDS(offsetof(xr_known, next) == 12);
HOLDS(offsetof(xr_known, inside) == 16);
HOLDS(offsetof(xr_known, kept) == 24);

HOLDS(sizeof(xr_portions) == 96);
HOLDS(offsetof(xr_portions, held) == 0);
HOLDS(offsetof(xr_portions, missing) == 8);
HOLDS(offsetof(xr_portions, rest) == 16);
HOLDS(offsetof(xr_portions, behind) == 24);
HOLDS(offsetof(xr_portions, known) == 32);
HOLDS(offsetof(xr_portions, item) == 88);

HOLDS(sizeof(xr_flat_followed) == 136);
HOLDS(offsetof(xr_flat_followed, code) == 0);
HOLDS(offsetof(xr_flat_followed, first) == 8);
HOLDS(offsetof(xr_flat_followed, second) == 16);
HOLDS(offsetof(xr_flat_followed, taken) == 24);
HOLDS(offsetof(xr_flat_followed, events) == 32);
HOLDS(offsetof(xr_flat_followed, state) == 40);

static int bad = 0;

static void hold(int fact, const char *words) {
    if (!fact) {
        printf("layout: it does not hold that %s\n", words);
        bad = 1;
    }
}
#define HOLD(fact) hold(fact, #fact)

static int same(xr_flat a, xr_flat b) {
    return a.code == b.code && a.first == b.first && a.second == b.second;
}

int main(void) {
    static const uint8_t packet[24] = {
        0x80, 0xcf, 0x00, 0x05, 0x00, 0x00, 0x00, 0x01, 0x01, 0x0f, 0x00, 0x03,
        0x00, 0x00, 0x00, 0x07, 0x80, 0x00, 0x80, 0x04, 0x40, 0x02, 0x40, 0x02,
    };
    const uint8_t *view = packet + 8;
    uint16_t out[4] = {9, 9, 9, 9};
    uint8_t word[2] = {9, 9};

    /* a reading that is neither 0 nor 1 is the crate's: its view is everything left, its words all but the last */
    HOLD(same(xr_words(7, packet, 24, 0, XR_LOSS, out, 4), xr_words(XR_CRATE, packet, 24, 0, XR_LOSS, out, 4)));
    HOLD(xr_words(7, packet, 24, 0, XR_LOSS, out, 4).first == 1);
    HOLD(xr_words(XR_STANDARD, packet, 24, 0, XR_LOSS, out, 4).first == 2);
    HOLD(xr_count(255, packet, 8).code == XR_TOO_SHORT);

    /* a kind of word that is none is a vector */
    HOLD(xr_chunk(9, 1, word, 2).first == 2 && word[0] == 0x80 && word[1] == 0x01);
    HOLD(xr_chunk(9, 32768, word, 2).code == XR_VALUE_TOO_LARGE);
    HOLD(xr_chunk(XR_NULL, 70000, word, 2).code == 0 && word[0] == 0 && word[1] == 0);

    /* a type that a question does not serve is refused as 10 with the block's own type */
    HOLD(xr_fields(XR_STANDARD, packet, 24, 0, 200).code == XR_OTHER_TYPE);
    HOLD(xr_fields(XR_STANDARD, packet, 24, 0, 200).first == 1);
    HOLD(xr_numbers_view(XR_STANDARD, 3, view, 16, out, 4).code == XR_OTHER_TYPE);
    HOLD(xr_cursor_view(0, view, 16, 0, 0, 0, 4, out, 4).code == XR_OTHER_TYPE);

    /* a place past the end: nothing there, and no next block */
    xr_flat_block past = xr_block_at(XR_STANDARD, packet, 24, 1000);
    HOLD(past.next == 1000 && past.size == 0 && past.length == 4 && past.kind == 0 && past.specific == 0);
    xr_flat_block here = xr_block_at(XR_STANDARD, packet, 24, 8);
    HOLD(here.next == 24 && here.size == 16 && here.length == 16 && here.kind == 1 && here.specific == 15);

    /* the fields in their places, and all 0 where they are refused */
    xr_flat_fields f = xr_fields_view(XR_STANDARD, XR_LOSS, view, 16);
    HOLD(f.code == 0 && f.ssrc == 7 && f.begin == 32768 && f.end == 32772 && f.thinning == 15);
    f = xr_fields_view(XR_STANDARD, XR_DUPLICATE, view, 16);
    HOLD(f.code == XR_OTHER_TYPE && f.first == 1 && f.ssrc == 0 && f.begin == 0 && f.end == 0 && f.thinning == 0);

    /* a stretch in its places: with thinning 15 only position 0 is inside */
    memset(out, 9, sizeof out);
    xr_flat_stretch s = xr_cursor_view(XR_LOSS, view, 16, 0, 0, 0, 3, out, 4);
    HOLD(s.code == 0 && s.word == 1 && s.place == 1 && s.position == 3 && s.taken == 3 && s.listed == 1);
    HOLD(out[0] == 32768 && out[1] == 0x0909);
    HOLD(xr_cursor_view(XR_LOSS, view, 16, 2, 1, 0, 3, out, 4).code == XR_NO_PLACE);

    HOLD(xr_chunk_of(0x4005).first == XR_ONES && xr_chunk_of(0x4005).second == 5);
    return bad;
}
