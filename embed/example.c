/* A member with terms of four views: 1 to 4, 5 to 8, and so on. Epoch 7, four seats, a quorum of three. C99 and C++. */
#include "resolver.h"

#include <inttypes.h>
#include <stdio.h>
#include <string.h>

static const char *const layers[] = {"", "terms", "record", "state", "verifier", "board", "queue", "resolver", "embedding"};
static const char *const kinds[] = {"background", "nullification", "notarization"};
static const char *const reasons[] = {"", "missing_nullification", "certification_failed"};
static const char *const outcomes[] = {"", "ignored", "invalid", "unresolved", "partial", "complete", "let go"};

/* All memory that the resolver uses. */
static resolver_member member;
static resolver_effects effects;

enum { NOTARIZATION = 1, NULLIFICATION = 2, FINALIZATION = 3 };

/* A record whose proof names some of the seats, one bit each. */
static resolver_record record(uint32_t kind, uint64_t epoch, uint64_t view, uint8_t seats) {
    const uint8_t payload[32] = {0};
    uint8_t proof[32] = {0};
    resolver_record made;
    proof[7] = seats;
    memset(&made, 0, sizeof made);
    resolver_frame(kind, epoch, view, 0, payload, proof, &made);
    return made;
}

static void print_refusal(uint32_t refusal, uint32_t layer) {
    printf("refused %" PRIu32 " %s\n", refusal, layers[layer]);
}

static void print_effects(const char *before) {
    uint64_t i;
    for (i = 0; i < effects.count; i++) {
        const resolver_effect *did = &effects.effects[i];
        fputs(before, stdout);
        before = ", ";
        switch (did->what) {
        case 1: printf("fetch %" PRIu64 " %" PRIu64 " %s", did->view, did->other, reasons[did->of]); break;
        case 2: printf("settled %s %" PRIu64 " %" PRIu64, kinds[did->of], did->view, did->other); break;
        case 3: printf("finalized %" PRIu64, did->view); break;
        default: printf("raised %" PRIu64, did->view); break;
        }
    }
    putchar('\n');
}

static void print_change(resolver_answer answer) {
    if (answer.refusal != 0) {
        print_refusal(answer.refusal, answer.layer);
        return;
    }
    fputs("ok", stdout);
    print_effects(" ");
}

static void update(uint32_t kind, uint64_t view) {
    const resolver_record told = record(kind, 7, view, 7);
    print_change(resolver_updated(&member, told.bytes, sizeof told.bytes, &effects));
}

static void certify(uint32_t success, uint64_t view) {
    const resolver_record told = record(NOTARIZATION, 7, view, 7);
    print_change(resolver_certified(&member, told.bytes, sizeof told.bytes, success, &effects));
}

static void deliver(uint64_t view, uint32_t asks, resolver_record told) {
    const resolver_answer answer = resolver_deliver(&member, view, asks, told.bytes, sizeof told.bytes, &effects);
    if (answer.refusal != 0) {
        print_refusal(answer.refusal, answer.layer);
        return;
    }
    printf("%s %s", outcomes[answer.value], answer.taken ? "taken" : "not taken");
    print_effects(" ");
}

static void print_yes(resolver_answer answer) {
    if (answer.refusal != 0)
        print_refusal(answer.refusal, answer.layer);
    else
        puts(answer.value ? "yes" : "no");
}

static void produce(uint64_t view) {
    static const char *const names[] = {"", "notarization", "nullification", "finalization"};
    resolver_record place;
    const resolver_answer answer = resolver_produce(&member, view, &place);
    if (answer.refusal != 0) {
        print_refusal(answer.refusal, answer.layer);
    } else if (!answer.value) {
        puts("none");
    } else {
        const resolver_reading read = resolver_read(place.bytes, sizeof place.bytes);
        printf("%s %" PRIu64 "\n", names[read.kind], read.view);
    }
}

static void print_asks(void) {
    uint32_t i;
    for (i = 0; i < member.ask_count; i++) {
        const resolver_ask *open = &member.asks[i];
        printf("%s%" PRIu64 " %s", i == 0 ? "" : ", ", open->view, kinds[open->rank]);
        if (open->targeted)
            printf(" %" PRIu32, open->target);
    }
    puts(member.ask_count == 0 ? "none" : "");
}

static void print_state(void) {
    printf("floor %" PRIu64 " current %" PRIu64 " cursor %" PRIu64 " replay %s rows %" PRIu32 " %" PRIu32 " %" PRIu32
           " %" PRIu32 "\n",
           member.floor, member.current_view, member.cursor, member.replaying ? "yes" : "no", member.nullification_count,
           member.pending_count, member.certified_count, member.failed_count);
}

int main(void) {
    static resolver_member before;
    resolver_record swapped;
    resolver_told told;
    resolver_reading read;

    /* Terms and records need no member. */
    told = resolver_term_end(4, 6);
    printf("end %" PRIu64 "\n", told.value);
    told = resolver_covers(4, 6, 9);
    puts(told.value ? "yes" : "no");
    told = resolver_term_start(0, 6);
    print_refusal(told.refusal, told.layer);
    read = resolver_read((const uint8_t *)"\x00", 1);
    print_refusal(read.refusal, read.layer);

    /* A quorum that there cannot be, and a member. */
    print_change(resolver_begin(&member, 4, 7, 4, 5));
    effects.count = 0;
    print_change(resolver_begin(&member, 4, 7, 4, 3));
    print_change(resolver_replayed(&member, &effects));
    update(NULLIFICATION, 10);
    print_asks();
    update(FINALIZATION, 6);
    print_asks();
    update(NULLIFICATION, 7);
    certify(0, 14);
    certify(1, 9);
    print_asks();

    /* Refusals change nothing. */
    before = member;
    update(4, 11);
    update(NULLIFICATION, UINT64_C(4611686018427387905));
    update(NULLIFICATION, UINT64_C(1) << 40);
    puts(memcmp(&before, &member, sizeof member) == 0 ? "same" : "changed");

    /* Requests and deliveries. */
    print_yes(resolver_resolve(&member, 20, 15, 2, 1, 2));
    print_yes(resolver_resolve(&member, 20, 12, 1, 0, 0));
    print_asks();
    deliver(16, 2, record(NULLIFICATION, 8, 16, 7));
    deliver(16, 2, record(NULLIFICATION, 7, 16, 3));
    deliver(15, 4, record(NOTARIZATION, 7, 17, 7));
    deliver(13, 3, record(NULLIFICATION, 7, 13, 7));
    deliver(15, 0, record(NULLIFICATION, 7, 16, 7));
    print_asks();
    print_yes(resolver_settled(&member, 8, 1));
    print_yes(resolver_settled(&member, 18, 1));
    produce(5);
    produce(12);
    produce(100);
    print_state();

    /* Memory that no calls leave: views that do not rise. It is answered, and stays as it is. */
    swapped = member.nullifications[0];
    member.nullifications[0] = member.nullifications[1];
    member.nullifications[1] = swapped;
    before = member;
    update(NULLIFICATION, 11);
    print_yes(resolver_settled(&member, 8, 1));
    produce(5);
    puts(memcmp(&before, &member, sizeof member) == 0 ? "same" : "changed");
    return 0;
}
