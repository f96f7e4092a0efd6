/* The header's structs beside what the library writes: each function is called from C on a small trace, and each field of its answer is
   read where the header has it. Then the calls that 01 refuses. The last line is `N passed, M failed`. */
#include "../../include/zlf.h"

int printf(const char *format, ...);
void *calloc(size_t count, size_t size);
void *memset(void *to, int byte, size_t n);
int memcmp(const void *a, const void *b, size_t n);

/* the sizes that the header's fields come to */
_Static_assert(sizeof(struct zlf_opening) == 8, "zlf_opening");
_Static_assert(sizeof(struct zlf_sequence) == 24, "zlf_sequence");
_Static_assert(sizeof(struct zlf_next_record) == 72, "zlf_next_record");
_Static_assert(sizeof(struct zlf_record_answer) == 64, "zlf_record_answer");
_Static_assert(sizeof(struct zlf_plain_answer) == 16, "zlf_plain_answer");
_Static_assert(sizeof(struct zlf_row) == 56, "zlf_row");
_Static_assert(sizeof(struct zlf_parser) == 268, "zlf_parser");
_Static_assert(sizeof(struct zlf_parsed) == 280, "zlf_parsed");

static int passed, failed;

static void is(const char *what, int64_t got, int64_t want) {
    if (got == want) {
        passed++;
        return;
    }
    failed++;
    printf("FAILED: %s is %lld, and not %lld\n", what, (long long)got, (long long)want);
}
#define IS(got, want) is(#got, (int64_t)(got), (int64_t)(want))

static uint8_t kinds[256];
static uint8_t trace[4096];
static size_t length;

static void put(uint64_t number, int bytes) {
    for (int i = 0; i < bytes; i++) trace[length++] = (uint8_t)(number >> 8 * i);
}

/* a record with a payload of 24 bytes that holds one PTI frame: 01's figure, with an RSSI, region and channel of its own */
static void record(uint64_t ticks, uint8_t properties, uint8_t rssi, uint8_t region, uint8_t channel) {
    static const uint8_t head[] = {0x5B, 0x16, 0x00, 0x02, 0, 0, 0, 0, 0, 0, 0, 0, 0, 0, 0xF8, 0xAA, 0xBB, 0xF9};
    put(ticks, 8);
    put(properties, 1);
    put(24, 4);
    for (size_t i = 0; i < sizeof head; i++) put(head[i], 1);
    put(rssi, 1);
    put(region, 1);
    put(channel, 1);
    put(0x06, 1);
    put(0x00, 1);
    put(0x5D, 1);
    put(1, 1);
}

#define TICKS 630822816000010000u
#define MILLIS 946684800001

static void header(uint32_t version) {
    uint16_t sum = 0x1D0F;
    memset(trace, 0, sizeof trace);
    length = 0;
    put(version, 4);
    for (int i = 0; i < 2046; i++) {
        sum ^= (uint16_t)(trace[i] << 8);
        for (int bit = 0; bit < 8; bit++) sum = sum & 0x8000 ? (uint16_t)(sum << 1 ^ 0x1021) : (uint16_t)(sum << 1);
    }
    length = 2046;
    put(sum, 2);
}

static void openings(void) {
    struct zlf_opening o = zlf_open(trace, length, 7);
    IS(o.refusal, 0), IS(o.version, 7);
    o = zlf_open(trace, length, 8);
    IS(o.refusal, 4), IS(o.version, 7);
    struct zlf_sequence s = zlf_open_sequence(trace, length, 7);
    IS(s.refusal, 0), IS(s.version, 7), IS(s.place, 2048), IS(s.count, 0);
    trace[100] ^= 1;
    s = zlf_open_sequence(trace, length, 7);
    IS(s.refusal, 3), IS(s.version, 0), IS(s.place, 0);
    trace[100] ^= 1;
    struct zlf_next_record n = zlf_next(kinds, trace, length, 2086, 5);
    IS(n.refusal, 0), IS(n.is_record, 1), IS(n.offset, 2086), IS(n.ticks, TICKS + 20000), IS(n.outgoing, 1), IS(n.session, 9);
    IS(n.end_byte, 1), IS(n.kind, 1), IS(n.payload, 2099), IS(n.size, 24), IS(n.negative, 0), IS(n.place, 2124), IS(n.count, 6);
    n = zlf_next(kinds, trace, length, length, 6);
    IS(n.refusal, 0), IS(n.is_record, 0), IS(n.offset, 0), IS(n.place, length), IS(n.count, 6);
}

static void records(void) {
    struct zlf_record_answer r = zlf_record(kinds, trace, length, 2086);
    IS(r.refusal, 0), IS(r.is_valid, 1), IS(r.offset, 2086), IS(r.ticks, TICKS + 20000), IS(r.outgoing, 1), IS(r.session, 9), IS(r.size, 24);
    IS(r.end_byte, 1), IS(r.kind, 1), IS(r.next, 2124), IS(r.millis, MILLIS + 2);
    struct zlf_search_answer s = zlf_search(kinds, trace, length, 2050, 1048576);
    IS(s.refusal, 0), IS(s.is_found, 1), IS(s.offset, 2086), IS(s.judged, 37);
    struct zlf_span_answer p = zlf_span(kinds, trace, length);
    IS(p.refusal, 0), IS(p.is_found, 1), IS(p.first, MILLIS), IS(p.last, MILLIS + 5);
    struct zlf_seek_answer k = zlf_seek(kinds, trace, length, MILLIS + 1);
    IS(k.refusal, 0), IS(k.is_found, 1), IS(k.offset, 2086), IS(k.halvings, 0);
    struct zlf_start_answer b = zlf_seek_start(kinds, trace, length);
    IS(b.refusal, 0), IS(b.state.searching, 1), IS(b.state.lo, 2048), IS(b.state.hi, length), IS(b.state.at, 0);
    struct zlf_step_answer t = zlf_seek_step(kinds, trace, length, MILLIS + 1, b.state);
    IS(t.refusal, 0), IS(t.answer, 2), IS(t.state.searching, 0), IS(t.state.lo, 0), IS(t.state.hi, 0), IS(t.state.at, 2048), IS(t.is_found, 0), IS(t.offset, 0);
    t = zlf_seek_step(kinds, trace, length, MILLIS + 1, t.state);
    IS(t.answer, 1), IS(t.state.at, 2086);
    t = zlf_seek_step(kinds, trace, length, MILLIS + 1, t.state);
    IS(t.answer, 3), IS(t.is_found, 1), IS(t.offset, 2086);
}

static void plain(void) {
    struct zlf_plain_answer a = zlf_plain_seek(kinds, trace, length, MILLIS + 1);
    IS(a.refusal, 0), IS(a.is_found, 1), IS(a.offset, 2086);
    a = zlf_plain_seek(kinds, trace, length, MILLIS + 2);
    IS(a.refusal, 0), IS(a.is_found, 1), IS(a.offset, 2086);
    a = zlf_plain_seek(kinds, trace, length, MILLIS + 5);
    IS(a.refusal, 0), IS(a.is_found, 1), IS(a.offset, 2124);
    a = zlf_plain_seek(kinds, trace, length, MILLIS + 6);
    IS(a.refusal, 0), IS(a.is_found, 0), IS(a.offset, 0);
    /* no record is earlier than a negative time */
    a = zlf_plain_seek(kinds, trace, length, -1);
    IS(a.refusal, 0), IS(a.is_found, 1), IS(a.offset, 2048);
    /* the first record is not at 2,048 */
    trace[2048 + 7] ^= 8;
    a = zlf_plain_seek(kinds, trace, length, 0);
    IS(a.refusal, 0), IS(a.is_found, 1), IS(a.offset, 2086);
    trace[2048 + 7] ^= 8;
    /* bytes after the last record: the walk comes to a record that is no boundary, and the whole seek passes it over */
    a = zlf_plain_seek(kinds, trace, length + 20, MILLIS + 1);
    IS(a.refusal, 0), IS(a.is_found, 1), IS(a.offset, 2086), IS(zlf_seek(kinds, trace, length + 20, MILLIS + 1).is_found, 0);
    a = zlf_plain_seek(kinds, trace, length + 20, MILLIS + 6);
    IS(a.refusal, 0), IS(a.is_found, 0), IS(a.offset, 0);
}

static void pages(void) {
    struct zlf_row table[5], untouched;
    memset(table, 0xA5, sizeof table);
    memset(&untouched, 0xA5, sizeof untouched);
    struct zlf_page_answer p = zlf_page(kinds, trace, length, 2048, 2, table, 5);
    IS(p.refusal, 0), IS(p.start, 2048), IS(p.size, 2), IS(p.is_more, 1), IS(p.next, 2124);
    struct zlf_row r = table[1];
    IS(r.record, 2086), IS(r.position, 0), IS(r.millis, MILLIS + 2), IS(r.gap, 2), IS(r.direction, 0), IS(r.region, 2), IS(r.channel, 1);
    IS(r.speed, 1), IS(r.rssi, -61), IS(r.beam_count, 0), IS(r.mpdu, 2114), IS(r.mpdu_len, 2);
    for (int i = 2; i < 5; i++) IS(memcmp(&table[i], &untouched, sizeof untouched), 0);
    p = zlf_page(kinds, trace, length, 2048, 3, table + 2, 2);
    IS(p.refusal, 7), IS(p.start, 0), IS(p.size, 0), IS(p.is_more, 0), IS(p.next, 0);
    for (int i = 2; i < 5; i++) IS(memcmp(&table[i], &untouched, sizeof untouched), 0);
    /* a table that the page fills to its last row */
    p = zlf_page(kinds, trace, length, 2048, 3, table + 1, 3);
    IS(p.refusal, 0), IS(p.start, 2048), IS(p.size, 3), IS(p.is_more, 0), IS(p.next, 0);
    IS(table[1].record, 2048), IS(table[2].record, 2086), IS(table[3].record, 2124), IS(memcmp(&table[4], &untouched, sizeof untouched), 0);
    struct zlf_seam_answer s = zlf_seam(kinds, trace, length, 2048);
    IS(s.refusal, 0), IS(s.is_unbroken, 1), IS(s.place, 0), IS(s.records, 3);
    s = zlf_seam(kinds, trace, length + 20, 2086);
    IS(s.refusal, 0), IS(s.is_unbroken, 0), IS(s.place, 2162), IS(s.records, 2);
}

static void leaves(void) {
    struct zlf_frame_answer f = zlf_frame(trace + 2099 + 3, 20);
    IS(f.is_frame, 1), IS(f.direction, 0), IS(f.region, 2), IS(f.channel, 1), IS(f.speed, 1), IS(f.rssi, -61), IS(f.beam_count, 0), IS(f.mpdu, 12), IS(f.mpdu_len, 2);
    f = zlf_frame(trace + 2099 + 3, 19);
    IS(f.is_frame, 0), IS(f.region, 0), IS(f.mpdu, 0);
    /* 01's figure, in two parts and with a byte after it */
    static const uint8_t bytes[] = {0x21, 0x01, 0x12, 0x34, 0x43, 0x00, 0xC4, 0x21, 0x03, 0x02, 0xAA, 0xBB, 0x23};
    struct zlf_parser lent[2], untouched;
    lent[0] = zlf_fresh();
    IS(lent->state, 0), IS(lent->command_id, 0), IS(lent->length, 0), IS(lent->count, 0), IS(lent->frame_type, 0), IS(lent->timestamp, 0), IS(lent->timestamp_state, 0);
    IS(lent->channel, 0), IS(lent->speed, 0), IS(lent->region, 0), IS(lent->rssi, 0);
    for (int i = 0; i < 255; i++) IS(lent->payload[i], 0);
    memset(&lent[1], 0xA5, sizeof lent[1]);
    memset(&untouched, 0xA5, sizeof untouched);
    struct zlf_parsed p = zlf_parse(lent, bytes, 11);
    IS(p.result.which, 0), IS(p.used, 11), IS(p.result.length, 0);
    struct zlf_parser *l = lent;
    IS(l->state, 3), IS(l->command_id, 0), IS(l->length, 2), IS(l->count, 1), IS(l->frame_type, 1), IS(l->timestamp, 4660), IS(l->timestamp_state, 0);
    IS(l->channel, 2), IS(l->speed, 3), IS(l->region, 0), IS(l->rssi, 196), IS(l->payload[0], 0xAA), IS(l->payload[254], 0);
    p = zlf_parse(lent, bytes + 11, 2);
    IS(p.result.which, 2), IS(p.result.id, 0), IS(p.result.timestamp, 4660), IS(p.result.channel, 2), IS(p.result.speed, 3), IS(p.result.region, 0);
    IS(p.result.rssi, 196), IS(p.result.length, 2), IS(p.used, 1), IS(p.payload[0], 0xAA), IS(p.payload[1], 0xBB), IS(l->state, 0), IS(l->timestamp, 0);
    static const uint8_t command[] = {0x23, 0x0E, 0x01, 0x77};
    p = zlf_parse(lent, command, 4);
    IS(p.result.which, 1), IS(p.result.id, 14), IS(p.result.length, 1), IS(p.used, 4), IS(p.payload[0], 0x77);
    p = zlf_parse(lent, 0, 0);
    IS(p.result.which, 0), IS(p.used, 0);
    l->state = 77;
    p = zlf_parse(lent, command, 4);
    IS(p.result.which, 3), IS(p.used, 1), IS(l->state, 0);
    IS(memcmp(&lent[1], &untouched, sizeof untouched), 0);
    IS(zlf_millis(621355967999999999u), 0), IS(zlf_millis(621355967999990000u), -1), IS(zlf_millis(TICKS), MILLIS);
    IS(zlf_speed(1, 1), 1), IS(zlf_speed(0, 1), 2), IS(zlf_speed(3, 12), 3), IS(zlf_speed(3, 1), 0);
}

/* every call on a trace, with a length */
static void refused(const uint8_t *bytes, size_t n, int number) {
    struct zlf_state scanning = {false, 0, 0, 2048};
    IS(zlf_next(kinds, bytes, n, 2048, 0).refusal, number), IS(zlf_record(kinds, bytes, n, 2048).refusal, number);
    IS(zlf_search(kinds, bytes, n, 0, 100).refusal, number), IS(zlf_span(kinds, bytes, n).refusal, number);
    IS(zlf_seek(kinds, bytes, n, 0).refusal, number), IS(zlf_seek_start(kinds, bytes, n).refusal, number);
    struct zlf_plain_answer plain = zlf_plain_seek(kinds, bytes, n, 0);
    IS(plain.refusal, number), IS(plain.is_found, 0), IS(plain.offset, 0);
    IS(zlf_seek_step(kinds, bytes, n, 0, scanning).refusal, number), IS(zlf_page(kinds, bytes, n, 2048, 1, 0, 0).refusal, number);
}

static void bad_calls(void) {
    /* no bytes, by a null pointer */
    IS(zlf_open(0, 0, 7).refusal, 2), IS(zlf_open_sequence(0, 0, 7).refusal, 2), IS(zlf_seam(kinds, 0, 0, 0).refusal, 6), IS(zlf_frame(0, 0).is_frame, 0);
    refused(0, 0, 0);
    IS(zlf_page(kinds, 0, 0, 2048, 1, 0, 0).start, 2048), IS(zlf_page(kinds, 0, 0, 2048, 1, 0, 0).is_more, 0);
    /* a table of no rows: enough for none, and not for one */
    IS(zlf_page(kinds, trace, length, 2048, 0, 0, 0).refusal, 0), IS(zlf_page(kinds, trace, length, 2048, 1, 0, 0).refusal, 7);
    /* a trace of the limit and one byte, which are not read */
    size_t limit = 1073741824;
    const uint8_t *zeros = calloc(limit + 1, 1);
    refused(zeros, limit + 1, 1);
    IS(zlf_open(zeros, limit + 1, 0).refusal, 1), IS(zlf_open_sequence(zeros, limit + 1, 0).refusal, 1), IS(zlf_seam(kinds, zeros, limit + 1, 2048).refusal, 1);
    IS(zlf_open(zeros, limit, 0).refusal, 0), IS(zlf_seam(kinds, zeros, limit, 2048).refusal, 0), IS(zlf_seam(kinds, zeros, limit, 2048).place, 2048);
    IS(zlf_plain_seek(kinds, zeros, limit, 0).refusal, 0), IS(zlf_plain_seek(kinds, zeros, limit, 0).is_found, 0);
    /* a window past the last offset */
    IS(zlf_search(kinds, trace, length, SIZE_MAX, 1).refusal, 5), IS(zlf_search(kinds, trace, length, SIZE_MAX, 0).refusal, 0);
    IS(zlf_page(kinds, trace, length, SIZE_MAX, 1, 0, 0).refusal, 5);
    /* places outside, and a reader that meets the end in a record */
    IS(zlf_seam(kinds, trace, length, 2047).refusal, 6), IS(zlf_seam(kinds, trace, length, length + 1).refusal, 6), IS(zlf_seam(kinds, trace, length, length).is_unbroken, 1);
    IS(zlf_next(kinds, trace, length, length - 10, 3).refusal, 9), IS(zlf_next(kinds, trace, length - 1, 2124, 3).refusal, 10);
    trace[2124 + 12] = 0xFF;
    struct zlf_next_record n = zlf_next(kinds, trace, length, 2124, 3);
    IS(n.refusal, 8), IS(n.negative, 24 - 16777216), IS(n.place, 2124), IS(n.count, 3), IS(n.is_record, 0);
}

int main(void) {
    kinds[1] = 1;
    header(7);
    record(TICKS, 0, 0xC4, 1, 1);
    record(TICKS + 20000, 0x89, 0xC3, 2, 1);
    record(TICKS + 50000, 0, 0xC2, 1, 0);
    openings();
    records();
    plain();
    pages();
    leaves();
    bad_calls();
    printf("%d passed, %d failed\n", passed, failed);
    return failed != 0;
}
