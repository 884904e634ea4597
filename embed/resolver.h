/* The resolver, for programs in C and C++. docs/embedding.md says more.
 *
 * A member is one struct resolver_member. The caller lends it to each call and writes nothing into it. No call allocates,
 * keeps a pointer or uses anything but its arguments. A call is refused, and then changes nothing, exactly as docs/refusals.md
 * says; memory that holds what no calls leave is answered with RESOLVER_UNSOUND, and stays as it is.
 *
 * Pointers may not be null, and what they point to may not overlap, but a pointer to no bytes may be anything that is not
 * null. Calls on different members may run side by side. */
#ifndef RESOLVER_H
#define RESOLVER_H

#include <stddef.h>
#include <stdint.h>

#ifdef __cplusplus
extern "C" {
#endif

enum {
    RESOLVER_ROWS = 128,    /* rows of a table */
    RESOLVER_ASKS = 320,    /* open asks */
    RESOLVER_EFFECTS = 256, /* effects of a call */
    RESOLVER_BYTES = 96     /* bytes of a record */
};

/* Refusals of this layer. Those of the others are in docs/refusals.md. */
enum {
    RESOLVER_UNSOUND = 16, /* the memory of the member holds what no calls leave */
    RESOLVER_UNKNOWN = 17  /* a number names no kind of ask */
};

/* Layers. */
enum {
    RESOLVER_TERMS = 1,
    RESOLVER_RECORD = 2,
    RESOLVER_STATE = 3,
    RESOLVER_VERIFIER = 4,
    RESOLVER_BOARD = 5,
    RESOLVER_QUEUE = 6,
    RESOLVER_RESOLVER = 7,
    RESOLVER_EMBEDDING = 8
};

/* A number, or why there is none: then refusal is not 0. */
typedef struct {
    uint32_t refusal;
    uint32_t layer;
    uint64_t value;
} resolver_told;

/* What a record says, or why it is none. kind: 1 notarization, 2 nullification, 3 finalization. */
typedef struct {
    uint32_t refusal;
    uint32_t layer;
    uint64_t kind;
    uint64_t epoch;
    uint64_t view;
    uint64_t parent;
} resolver_reading;

/* What came of a call. value: of a delivery 1 ignored, 2 invalid, 3 unresolved, 4 partial, 5 complete, 6 let go; of a
 * question 1 or 0. taken: of a delivery whether the record was recorded. */
typedef struct {
    uint32_t refusal;
    uint32_t layer;
    uint32_t value;
    uint32_t taken;
} resolver_answer;

typedef struct {
    uint8_t bytes[RESOLVER_BYTES];
} resolver_record;

/* An open ask. rank: 0 background, 1 nullification, 2 notarization. Where targeted is 1, the seat target alone is asked. */
typedef struct {
    uint64_t view;
    uint32_t rank;
    uint32_t targeted;
    uint32_t target;
} resolver_ask;

/* An effect. what: 1 fetch of view, led to by other; 2 settled from view to other; 3 finalized; 4 raised.
 * of: of a fetch 1 missing nullification, 2 certification failed; of what is settled 1 nullification, 2 notarization. */
typedef struct {
    uint32_t what;
    uint32_t of;
    uint64_t view;
    uint64_t other;
} resolver_effect;

/* The effects of a call that was not refused: the first count of them. */
typedef struct {
    uint64_t count;
    resolver_effect effects[RESOLVER_EFFECTS];
} resolver_effects;

/* A member, to be read: the first so many rows of each table and the first ask_count asks count, in ascending order. */
typedef struct {
    uint32_t term_length;
    uint32_t seats;
    uint32_t quorum;
    uint32_t replaying;
    uint64_t epoch;
    uint64_t current_view;
    uint64_t floor;
    uint64_t cursor;
    uint32_t finalization_count;
    uint32_t nullification_count;
    uint32_t pending_count;
    uint32_t certified_count;
    uint32_t failed_count;
    uint32_t ask_count;
    resolver_record finalization;
    resolver_record nullifications[RESOLVER_ROWS];
    resolver_record certified[RESOLVER_ROWS];
    uint64_t pending[RESOLVER_ROWS];
    uint64_t failed[RESOLVER_ROWS];
    resolver_ask asks[RESOLVER_ASKS];
} resolver_member;

/* Terms of length views each. covers: 1 or 0. */
resolver_told resolver_term_start(uint32_t length, uint64_t view);
resolver_told resolver_term_end(uint32_t length, uint64_t view);
resolver_told resolver_next_term_start(uint32_t length, uint64_t view);
resolver_told resolver_covers(uint32_t length, uint64_t nullified, uint64_t view);

/* Records. frame writes the bytes with these fields, whether they are a record or not. */
resolver_reading resolver_read(const uint8_t *bytes, size_t length);
resolver_told resolver_frame(uint32_t kind, uint64_t epoch, uint64_t view, uint64_t parent, const uint8_t payload[32],
                             const uint8_t proof[32], resolver_record *place);

/* A member with nothing recorded, at the start of a replay. What stood in its memory does not matter. */
resolver_answer resolver_begin(resolver_member *member, uint32_t term_length, uint64_t epoch, uint32_t seats,
                               uint32_t quorum);

/* Evidence, a verdict on a notarization (it passed unless success is 0), and the end of replay. */
resolver_answer resolver_updated(resolver_member *member, const uint8_t *bytes, size_t length, resolver_effects *effects);
resolver_answer resolver_certified(resolver_member *member, const uint8_t *bytes, size_t length, uint32_t success,
                                   resolver_effects *effects);
resolver_answer resolver_replayed(resolver_member *member, resolver_effects *effects);

/* A request for what a proposal names below it; kind: 1 nullification, 2 notarization. Where targeted is not 0, the seat
 * target alone is asked. value: whether there is an ask for it now. */
resolver_answer resolver_resolve(resolver_member *member, uint64_t proposal, uint64_t view, uint32_t kind,
                                 uint32_t targeted, uint32_t target);

/* What a peer delivered for a view; asks is a sum of 1 background, 2 nullification, 4 notarization. */
resolver_answer resolver_deliver(resolver_member *member, uint64_t view, uint32_t asks, const uint8_t *bytes,
                                 size_t length, resolver_effects *effects);

/* Questions: whether an ask for a kind is settled; the record that is served for a view, copied into place if there is
 * one. */
resolver_answer resolver_settled(const resolver_member *member, uint64_t view, uint32_t kind);
resolver_answer resolver_produce(const resolver_member *member, uint64_t view, resolver_record *place);

#ifdef __cplusplus
}
#endif

#endif
