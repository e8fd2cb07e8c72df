/* What happens when a caller breaks the rule of reuse, and three ways to keep it. A composer sends a draft, whose write the card is slow to
 * perform. The host aborts the job and gives its element to the next one, which sends the plate. Every call is accepted in all four runs;
 * in the first, the draft's bytes are read as the plate. */
#include <stdio.h>
#include <stdlib.h>
#include <string.h>

#include "fordlinnet.h"

enum { SIZE = 64, SLOT = 1, LINK = 1, KEY = 7, NEW_KEY = 8, BASE = 0x10000 };

static const char draft[] = "DRAFT 3.1 m", plate[] = "PLATE 9.4 m";

struct end {
    uint8_t memory[SIZE];
    struct fordlinnet_record table[1];
    struct fordlinnet_group group;
    uint8_t moved[FORDLINNET_MESSAGE_LENGTH];
};

/* A write on its way, and the queue pair that it comes by: each composer has its own. */
enum { DRAFTS = 0, PLATES = 1 };
struct write {
    int pair;
    uint32_t key;
    uint64_t address;
    uint8_t bytes[32];
    uint32_t length;
};

/* The host's card: the key that its memory has, and which queue pairs are up. */
struct card {
    uint32_t key;
    bool up[2];
};

static void accepted(uint32_t said, const char *what) {
    if (said != FORDLINNET_REFUSED && said != FORDLINNET_UNKNOWN) return;
    printf("refused: %s\n", what);
    exit(1);
}

static void begin(struct end *e, bool server) {
    memset(e, 0, sizeof *e);
    e->group.s = 1;
    e->group.n = SIZE;
    e->group.memory = e->memory;
    e->group.memory_length = sizeof e->memory;
    e->group.table = e->table;
    e->group.table_length = 1;
    if (!fordlinnet_fresh(&e->group, server)) exit(1);
    accepted(fordlinnet_link_change(&e->group, LINK, true, e->moved, sizeof e->moved).said, "link change");
}

static void open_slot(struct end *e, uint32_t own, uint32_t peer, uint32_t key) {
    struct fordlinnet_rtoken memory = {.key = key, .base = BASE};
    struct fordlinnet_remote remote = {.size = SIZE, .index = 1, .link1 = memory, .link2 = memory, .link3 = memory, .link4 = memory};
    struct fordlinnet_opening opening = {.own = own, .peer = peer, .link = LINK, .remote = remote};
    accepted(fordlinnet_open(&e->group, SLOT, opening).said, "open");
}

static struct fordlinnet_answer send(struct end *e, const char *bytes, int pair, struct write *w) {
    struct fordlinnet_answer a = fordlinnet_send(&e->group, SLOT, (const uint8_t *)bytes, strlen(bytes));
    accepted(a.said, "send");
    w->pair = pair;
    w->key = a.first.key;
    w->address = a.first.address;
    w->length = a.first.len;
    memcpy(w->bytes, bytes + a.first.start, a.first.len);
    return a;
}

/* What a card does with a write that arrives: it has a look at the queue pair and at the key, and at nothing else. */
static void arrive(const struct card *card, struct end *host, const struct write *w) {
    const char *whose = w->pair == DRAFTS ? "the draft's" : "the plate's";
    if (!card->up[w->pair]) {
        printf("  %s write does not arrive: its queue pair is down\n", whose);
    } else if (w->key != card->key) {
        printf("  %s write is turned away: its key is revoked\n", whose);
    } else {
        memcpy(host->memory + (w->address - BASE), w->bytes, w->length);
        printf("  %s write lands: %u bytes\n", whose, (unsigned)w->length);
    }
}

enum rule { BROKEN, QUEUE_PAIR_DOWN, KEY_REVOKED, ABORT_HEARD };

static void run(enum rule rule, const char *title) {
    static struct end host, composer, next;
    struct card card = {.key = KEY, .up = {true, true}};
    struct write late, now;
    struct fordlinnet_answer a, sent;
    uint8_t out[32], abort[FORDLINNET_MESSAGE_LENGTH];

    printf("%s\n", title);
    begin(&host, true);
    begin(&composer, false);
    begin(&next, false);
    open_slot(&host, 5, 6, 0);
    open_slot(&composer, 6, 5, card.key);
    sent = send(&composer, draft, DRAFTS, &late);
    printf("  the draft's send names %u bytes for address %u by key %u\n", (unsigned)late.length, (unsigned)late.address,
           (unsigned)late.key);

    accepted(fordlinnet_abort(&host.group, SLOT, abort).refusal ? FORDLINNET_REFUSED : FORDLINNET_ACCEPTED, "abort");
    if (rule == ABORT_HEARD) {
        /* the composer's card performs its writes before the messages that follow them, and its A is one */
        struct fordlinnet_answer h = fordlinnet_hear(&composer.group, abort, sizeof abort);
        accepted(h.said, "hear");
        arrive(&card, &host, &late);
        accepted(fordlinnet_hear(&host.group, sent.message, sizeof sent.message).said, "hear");
        h = fordlinnet_hear(&host.group, h.message, sizeof h.message);
        accepted(h.said, "hear");
        printf("  the host hears the composer's A: %s\n", fordlinnet_state_words(h.state));
    } else if (rule == BROKEN) {
        accepted(fordlinnet_free(&host.group, SLOT).said, "free");
        printf("  the host aborts and frees the slot\n");
    } else {
        if (rule == QUEUE_PAIR_DOWN) card.up[DRAFTS] = false;
        if (rule == KEY_REVOKED) card.key = NEW_KEY;
        accepted(fordlinnet_free_when_no_write_can_arrive(&host.group, SLOT).said, "free");
        printf("  the host aborts, %s, and frees the slot\n", rule == QUEUE_PAIR_DOWN ? "takes the queue pair down" : "revokes the key");
    }

    open_slot(&host, 15, 16, 0);
    open_slot(&next, 16, 15, card.key);
    printf("  the slot is open again\n");
    a = send(&next, plate, PLATES, &now);
    arrive(&card, &host, &now);
    if (rule != ABORT_HEARD) arrive(&card, &host, &late);
    accepted(fordlinnet_hear(&host.group, a.message, sizeof a.message).said, "hear");
    a = fordlinnet_read(&host.group, SLOT, out, sizeof out);
    accepted(a.said, "read");
    printf("  read as the plate: %.*s\n", (int)a.n, (const char *)out);
}

int main(void) {
    run(BROKEN, "free, then open, while a write is under way");
    run(QUEUE_PAIR_DOWN, "free when the queue pair is down");
    run(KEY_REVOKED, "free when the key is revoked");
    run(ABORT_HEARD, "no free: the composer's A is heard");
    return 0;
}
