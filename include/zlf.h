/* zlf.h: reading ZLF traces, by the static library `zlf` (bindings/library writes target/staticlib/libzlf.a, for x86-64).
 *
 * Every function is proved to answer what the project's definitions say, for every input: the promises are in src/ of crates/capi_frames,
 * capi_records, capi_seeks and capi_pages.
 *
 * What is passed
 *   kinds   256 bytes: entry e is the kind of the end byte e: 0 unknown, 1 PTI, 2 PTI diagnostic, 3 Zniffer, 4 another known type; an
 *           entry above 4 reads as 0. It must not be null.
 *   trace   the whole trace, header included, and its length. With the length 0 the pointer may be null, here and wherever a pointer
 *           goes with a length. Nobody may write to the bytes during a call.
 *   offsets, places and lengths are bytes from the trace's start; times are milliseconds since the Unix epoch.
 *
 * What comes back
 *   A struct by value. `refusal` is 0, or the number below of the first that applies; then every other field is 0, but for what is
 *   said there, and nothing lent is changed.
 *
 *    1  the trace is over 1,073,741,824 bytes (every call on a trace)
 *    2  opening: the trace is under 2,048 bytes
 *    3  opening in sequence: the header's sum is wrong
 *    4  opening: another version, which is returned
 *    5  a search's start and window together pass 2^64 - 1
 *    6  the seam check's place is below 2,048 or above the length
 *    7  the page's rows outnumber the table
 *    8  in sequence: a negative length, which is returned
 *    9  in sequence: the trace ends in a record's properties or length
 *   10  in sequence: the trace ends in a record's payload or end byte
 */
#ifndef ZLF_H
#define ZLF_H

#include <stdbool.h>
#include <stddef.h>
#include <stdint.h>

#ifdef __cplusplus
extern "C" {
#endif

/* Opening as a cursor: refusals 1, 2, 4. */
struct zlf_opening {
    uint32_t refusal;
    uint32_t version; /* the trace's first four bytes */
};

/* Opening in sequence: refusals 1, 2, 3, 4. */
struct zlf_sequence {
    uint32_t refusal;
    uint32_t version;
    size_t place;   /* where the first record is to be read: 2,048 */
    uint64_t count; /* records read: 0 */
};

/* The next record in sequence: refusals 1, 8, 9, 10. Neither a record nor a refusal: the trace has ended. */
struct zlf_next_record {
    uint32_t refusal;
    bool is_record;
    size_t offset;
    uint64_t ticks;    /* as stored; zlf_millis gives the time */
    bool outgoing;
    uint8_t session;
    uint8_t end_byte;
    uint8_t kind;      /* by the table, 0 for an unknown one */
    size_t payload;    /* where the payload begins in the trace, and its length */
    size_t size;
    int32_t negative;  /* the length of refusal 8 */
    size_t place;      /* the reader afterwards: after a refusal or the end, as it was given */
    uint64_t count;
};

/* The record at an offset: refusal 1. */
struct zlf_record_answer {
    uint32_t refusal;
    bool is_valid;
    size_t offset;
    uint64_t ticks;
    bool outgoing;
    uint8_t session;
    size_t size;       /* the payload's length; it begins at offset + 13 */
    uint8_t end_byte;
    uint8_t kind;
    size_t next;       /* the offset after the record */
    uint64_t millis;   /* a valid record's time is after 2000 */
};

/* A search: refusals 1, 5. */
struct zlf_search_answer {
    uint32_t refusal;
    bool is_found;
    size_t offset;
    size_t judged; /* how many offsets were judged */
};

/* The span: refusal 1. */
struct zlf_span_answer {
    uint32_t refusal;
    bool is_found;
    uint64_t first; /* the time of the first record, and of the last */
    uint64_t last;
};

/* The whole seek: refusal 1. */
struct zlf_seek_answer {
    uint32_t refusal;
    bool is_found;
    size_t offset;
    size_t halvings;
};

/* The plain seek: refusal 1. */
struct zlf_plain_answer {
    uint32_t refusal;
    bool is_found;
    size_t offset;
};

/* A state of the stepped seek: searching between lo and hi, or else scanning from at. */
struct zlf_state {
    bool searching;
    size_t lo;
    size_t hi;
    size_t at;
};

/* Where a stepped seek starts: refusal 1. */
struct zlf_start_answer {
    uint32_t refusal;
    struct zlf_state state;
};

/* A step: refusals 1, 5. */
struct zlf_step_answer {
    uint32_t refusal;
    uint32_t answer;        /* 1 more and 2 scan: pass the state back; 3 done */
    struct zlf_state state;
    bool is_found;          /* of 3 */
    size_t offset;
};

/* A row of the table: one to a frame. */
struct zlf_row {
    size_t record;       /* the record's offset, and the frame's position among those of the record */
    size_t position;
    int64_t millis;
    int64_t gap;         /* since the row before, 0 for a page's first */
    uint8_t direction;   /* 0 received, 1 sent */
    uint8_t region;
    uint8_t channel;
    uint8_t speed;       /* 0 is 9.6k, 1 is 40k, 2 is 100k, 3 is Long Range */
    int8_t rssi;
    uint16_t beam_count; /* 0 where this is no beam */
    size_t mpdu;         /* where the MPDU begins in the trace, and its length */
    size_t mpdu_len;
};

/* A page: refusals 1, 5, 7. */
struct zlf_page_answer {
    uint32_t refusal;
    size_t start;  /* where the page started */
    size_t size;   /* how many rows it wrote */
    bool is_more;  /* whether there is a next place, and that place */
    size_t next;
};

/* The seam check: refusals 1, 6. */
struct zlf_seam_answer {
    uint32_t refusal;
    bool is_unbroken;
    size_t place;   /* where it is broken, the first offset without a valid record */
    size_t records; /* how many valid records come before it, or before the trace's end */
};

/* One body's frame. It has no refusal: the body is no trace. */
struct zlf_frame_answer {
    bool is_frame;
    uint8_t direction;
    uint8_t region;
    uint8_t channel;
    uint8_t speed;
    int8_t rssi;
    uint16_t beam_count;
    size_t mpdu;     /* where the MPDU begins in the body, and its length */
    size_t mpdu_len;
};

/* The parser of the Zniffer's bytes. It belongs to the caller; all zero is a fresh one. Numbers that no bytes from a fresh one could
 * have left make the next byte a bad one, after which it is fresh. */
struct zlf_parser {
    uint8_t state;        /* 0 start of frame, 1 command id, 2 length, 3 payload, 4 type, 5 timestamp, 6 channel and speed, 7 region,
                             8 RSSI, 9 and 10 start of data */
    uint8_t command_id;
    uint8_t length;       /* the payload's length, and how many bytes of it are there */
    uint8_t count;
    uint8_t frame_type;
    uint16_t timestamp;
    bool timestamp_state; /* the timestamp lacks its low byte */
    uint8_t channel;
    uint8_t speed;
    uint8_t region;
    uint8_t rssi;
    uint8_t payload[255];
};

/* A result of the parser. */
struct zlf_result {
    uint8_t which;      /* 0 more bytes are wanted, 1 a command, 2 a frame, 3 a bad byte */
    uint8_t id;         /* of a command */
    uint16_t timestamp; /* of a frame, down to rssi */
    uint8_t channel;
    uint8_t speed;
    uint8_t region;
    uint8_t rssi;
    uint8_t length;     /* of the payload */
};

struct zlf_parsed {
    struct zlf_result result;
    size_t used;          /* how many bytes were used */
    uint8_t payload[255]; /* of a command or a frame: the first result.length bytes */
};

/* Opens a trace as a cursor: only the version is checked, against the one expected. */
struct zlf_opening zlf_open(const uint8_t *trace, size_t len, uint32_t version);

/* Opens a trace in sequence: the header's sum is checked, and then the version. */
struct zlf_sequence zlf_open_sequence(const uint8_t *trace, size_t len, uint32_t version);

/* The next record in sequence, of a reader at a place with a count: those of zlf_open_sequence, and then of the last answer. */
struct zlf_next_record zlf_next(const uint8_t *kinds, const uint8_t *trace, size_t len, size_t place, uint64_t count);

/* The record at an offset. */
struct zlf_record_answer zlf_record(const uint8_t *kinds, const uint8_t *trace, size_t len, size_t offset);

/* The first boundary at or after `from`, and not below 2,048, of the offsets of a window; the usual window is 1,048,576. */
struct zlf_search_answer zlf_search(const uint8_t *kinds, const uint8_t *trace, size_t len, size_t from, size_t window);

/* The times of the first and of the last record. */
struct zlf_span_answer zlf_span(const uint8_t *kinds, const uint8_t *trace, size_t len);

/* The first record at or after a time. */
struct zlf_seek_answer zlf_seek(const uint8_t *kinds, const uint8_t *trace, size_t len, int64_t time);

/* The first record at or after a time, by a plain walk: from the first record, the one that zlf_search finds from 2,048 with the usual
 * window, each where the last ended, up to the first place without a valid one. Slow and easy to trust. Where there is a first record, the
 * trace is unbroken from it, times never decrease, and every boundary from it on is the start of one of those records, it finds what
 * zlf_seek and the stepped seek find, which is proved (crates/plain). Near damage they can differ. */
struct zlf_plain_answer zlf_plain_seek(const uint8_t *kinds, const uint8_t *trace, size_t len, int64_t time);

/* Where a stepped seek starts, and one step of it. */
struct zlf_start_answer zlf_seek_start(const uint8_t *kinds, const uint8_t *trace, size_t len);
struct zlf_step_answer zlf_seek_step(const uint8_t *kinds, const uint8_t *trace, size_t len, int64_t time, struct zlf_state state);

/* A page from any offset, of at least `count` rows where there are so many, into a table of `room` rows. Rows past those written, and
 * every row on a refusal, are as they were. */
struct zlf_page_answer zlf_page(const uint8_t *kinds, const uint8_t *trace, size_t len, size_t offset, size_t count, struct zlf_row *table, size_t room);

/* Whether valid records follow one another from a place to the trace's end, and how many. */
struct zlf_seam_answer zlf_seam(const uint8_t *kinds, const uint8_t *trace, size_t len, size_t place);

/* The frame in the body of a bracket record. */
struct zlf_frame_answer zlf_frame(const uint8_t *body, size_t len);

/* A fresh parser; and several bytes into a parser, which must not be null, up to the first result that wants no more. */
struct zlf_parser zlf_fresh(void);
struct zlf_parsed zlf_parse(struct zlf_parser *parser, const uint8_t *bytes, size_t len);

/* The milliseconds that stored ticks stand for, rounded toward zero. */
int64_t zlf_millis(uint64_t raw);

/* The speed of a channel in a region: 0 is 9.6k, and what is given for a pair that has none. */
uint8_t zlf_speed(uint8_t channel, uint8_t region);

#ifdef __cplusplus
}
#endif

#endif
