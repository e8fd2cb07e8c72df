/* Two ends of one connection in one program: they open, one sends, the other places, hears, reads and closes; a link fails, and the
 * connection goes on over another. What a network card and a network would do, carry() does: it places the bytes and hands over the
 * messages. */
#include <stdio.h>
#include <stdlib.h>
#include <string.h>

#include "fordlinnet.h"

enum { SLOTS = 3, SIZE = 64, SLOT = 3, LINK = 1, OTHER = 2 };

struct end {
    const char *name;
    uint8_t memory[SLOTS * SIZE];
    struct fordlinnet_record table[SLOTS];
    struct fordlinnet_group group;
    uint8_t moved[SLOTS * FORDLINNET_MESSAGE_LENGTH]; /* the buffer of the calls on links */
    uint32_t token;
    uint32_t key; /* on link 1; on link l it is l - 1 more */
    uint64_t base;
};

static struct end left = {.name = "left", .token = 5, .key = 70, .base = 0x10000};
static struct end right = {.name = "right", .token = 6, .key = 80, .base = 0x20000};

static void expect(int met, const char *what) {
    if (met) return;
    printf("not as expected: %s\n", what);
    exit(1);
}

/* The end's memory on a link: each card has a key and an address of its own for it. */
static struct fordlinnet_rtoken memory_on(const struct end *me, uint32_t link) {
    struct fordlinnet_rtoken t = {.key = me->key + link - 1, .base = me->base + (link - 1) * 0x1000};
    return t;
}

static struct fordlinnet_link_answer change(struct end *me, uint8_t link, bool up) {
    return fordlinnet_link_change(&me->group, link, up, me->moved, sizeof me->moved);
}

static void open_towards(struct end *me, const struct end *peer) {
    struct fordlinnet_remote remote = {.size = SIZE,
                                       .index = SLOT,
                                       .link1 = memory_on(peer, 1),
                                       .link2 = memory_on(peer, 2),
                                       .link3 = memory_on(peer, 3),
                                       .link4 = memory_on(peer, 4)};
    struct fordlinnet_opening opening = {.own = me->token, .peer = peer->token, .link = LINK, .remote = remote};
    struct fordlinnet_answer a;
    struct fordlinnet_link_answer l;

    me->group.s = SLOTS;
    me->group.n = SIZE;
    me->group.memory = me->memory;
    me->group.memory_length = sizeof me->memory;
    me->group.table = me->table;
    me->group.table_length = SLOTS;
    fordlinnet_fresh(&me->group, me == &left);

    a = fordlinnet_open(&me->group, SLOT, opening);
    expect(a.said == FORDLINNET_REFUSED && a.refusal == FORDLINNET_LINK_DOWN, "open is refused while the link is down");
    l = change(me, LINK, true);
    expect(l.said == FORDLINNET_LINK_CHANGED && l.count == 0 && me->group.links.active[LINK - 1], "the link is active");
    a = fordlinnet_open(&me->group, SLOT, opening);
    expect(a.said == FORDLINNET_ACCEPTED && me->table[SLOT - 1].id.opened, "the slot is open");
    printf("%s: slot %d is open\n", me->name, SLOT);
}

/* The offset in the peer's element that a placing's address means on the link whose key it has. */
static uint32_t offset_at(const struct end *peer, uint32_t key, uint64_t address) {
    expect(key == peer->key || key == peer->key + 1, "a key of the peer's");
    return (uint32_t)(address - memory_on(peer, key - peer->key + 1).base - (SLOT - 1) * SIZE);
}

static void place(struct end *peer, uint32_t key, uint64_t address, const uint8_t *bytes, uint32_t length) {
    uint32_t offset = offset_at(peer, key, address);
    struct fordlinnet_answer a = fordlinnet_place(&peer->group, SLOT, offset, bytes, length);
    expect(a.said == FORDLINNET_ACCEPTED, "the bytes are placed");
    expect(fordlinnet_place_direct(&peer->group, SLOT, offset, bytes, length) == 0, "the small answer says the same");
    printf("%s: %u bytes are placed by key %u\n", peer->name, (unsigned)length, (unsigned)key);
}

/* Field by field: what lies between the fields is nobody's. */
static int same_cursor(struct fordlinnet_cursor a, struct fordlinnet_cursor b) { return a.offset == b.offset && a.wrap == b.wrap; }

static int same_urgent(struct fordlinnet_urgent a, struct fordlinnet_urgent b) {
    return a.standing == b.standing && same_cursor(a.place, b.place);
}

static int same_record(struct fordlinnet_record a, struct fordlinnet_record b) {
    return a.id.opened == b.id.opened && a.id.own == b.id.own && a.id.peer == b.id.peer && a.id.link == b.id.link &&
           a.remote.size == b.remote.size && a.remote.index == b.remote.index && a.remote.link1.base == b.remote.link1.base &&
           same_cursor(a.inbound.producer, b.inbound.producer) && same_cursor(a.inbound.consumer, b.inbound.consumer) &&
           same_cursor(a.inbound.told, b.inbound.told) && a.inbound.last == b.inbound.last && a.inbound.blocked == b.inbound.blocked &&
           a.inbound.request == b.inbound.request && same_urgent(a.inbound.urgent, b.inbound.urgent) &&
           same_cursor(a.outbound.producer, b.outbound.producer) && same_cursor(a.outbound.consumer, b.outbound.consumer) &&
           a.outbound.next == b.outbound.next && a.outbound.blocked == b.outbound.blocked &&
           same_urgent(a.outbound.urgent, b.outbound.urgent) && a.marks.sent.done == b.marks.sent.done &&
           a.marks.sent.closed == b.marks.sent.closed && a.marks.heard.done == b.marks.heard.done &&
           a.marks.heard.closed == b.marks.heard.closed && a.marks.first == b.marks.first && a.marks.abort == b.marks.abort;
}

static int same_table(const struct fordlinnet_record *a, const struct fordlinnet_record *b) {
    int i;
    for (i = 0; i < SLOTS; i++) {
        if (!same_record(a[i], b[i])) return 0;
    }
    return 1;
}

/* A hear, and the hear with a small answer on a copy of the table before: it says and leaves the same. */
static struct fordlinnet_answer hear(struct end *me, const uint8_t *bytes, size_t length) {
    struct fordlinnet_group copy = me->group;
    struct fordlinnet_record table[SLOTS];
    uint8_t message[44] = {0};
    struct fordlinnet_hear_answer r;
    struct fordlinnet_answer a;
    memcpy(table, me->table, sizeof table);
    copy.table = table;
    r = fordlinnet_hear_direct(&copy, bytes, length, message);
    a = fordlinnet_hear(&me->group, bytes, length);
    expect(r.refusal == a.refusal && r.made == a.made && r.state == a.state && r.moved == a.moved, "the small answer says the same");
    expect(memcmp(message, a.message, sizeof message) == 0 && same_table(table, me->table), "the same message and record");
    return a;
}

/* Shutdown, close or abort, and the same by its number on a copy of the table before: it says and leaves the same. */
static struct fordlinnet_answer finish(struct end *me, uint32_t number) {
    struct fordlinnet_group copy = me->group;
    struct fordlinnet_record table[SLOTS];
    uint8_t message[44] = {0};
    struct fordlinnet_finish_answer r;
    struct fordlinnet_answer a;
    memcpy(table, me->table, sizeof table);
    copy.table = table;
    a = fordlinnet_call(&copy, fordlinnet_command_of(number, SLOT), 0, 0, 0, 0);
    r = number == FORDLINNET_SHUTDOWN ? fordlinnet_shutdown(&me->group, SLOT, message)
        : number == FORDLINNET_CLOSE  ? fordlinnet_close(&me->group, SLOT, message)
                                      : fordlinnet_abort(&me->group, SLOT, message);
    expect(r.refusal == a.refusal && r.made == a.made && r.reset == (a.said == FORDLINNET_RESET), "by its number it says the same");
    expect(memcmp(message, a.message, sizeof message) == 0 && same_table(table, me->table), "the same message and record");
    return a;
}

/* What the card and the network do: the bytes first, then the message. */
static void carry(struct end *peer, struct fordlinnet_answer a, const uint8_t *bytes) {
    if (a.placings > 0) place(peer, a.first.key, a.first.address, bytes + a.first.start, a.first.len);
    if (a.placings > 1) place(peer, a.second.key, a.second.address, bytes + a.second.start, a.second.len);
    if (a.made) {
        struct fordlinnet_answer h = hear(peer, a.message, sizeof a.message);
        expect(h.said == FORDLINNET_HEARD, "the message is heard");
        printf("%s: heard, the producer moved by %u, state %u\n", peer->name, (unsigned)h.moved, (unsigned)h.state);
        if (h.made) carry(peer == &left ? &right : &left, h, bytes);
    }
}

/* A send or an urgent send by its number, and the one with a small answer on a copy of the table before: it says and leaves the same. */
static struct fordlinnet_answer sent(struct end *me, uint32_t number, const char *bytes) {
    struct fordlinnet_group copy = me->group;
    struct fordlinnet_record table[SLOTS];
    uint8_t message[44] = {0};
    struct fordlinnet_send_answer r;
    struct fordlinnet_answer a;
    memcpy(table, me->table, sizeof table);
    copy.table = table;
    r = (number == FORDLINNET_SEND ? fordlinnet_send_direct : fordlinnet_urgent_send)(&copy, SLOT, (const uint8_t *)bytes, strlen(bytes),
                                                                                      message);
    a = fordlinnet_call(&me->group, fordlinnet_command_of(number, SLOT), (const uint8_t *)bytes, strlen(bytes), 0, 0);
    expect(r.refusal == a.refusal && r.made == a.made && r.n == a.n && r.placings == a.placings, "the small answer says the same");
    expect(r.first.key == a.first.key && r.first.address == a.first.address && r.first.start == a.first.start, "the same placing");
    expect(r.first.len == a.first.len && r.second.address == a.second.address && r.second.len == a.second.len, "the same placings");
    expect(memcmp(message, a.message, sizeof message) == 0 && same_table(table, me->table), "the same message and record");
    return a;
}

static struct fordlinnet_answer send(struct end *me, const char *bytes) { return sent(me, FORDLINNET_SEND, bytes); }

/* The read with a small answer, on a copy of the table: it says and leaves the same. */
static void read_again(const struct end *me, struct fordlinnet_record before, struct fordlinnet_answer a, const uint8_t *wanted) {
    struct fordlinnet_group copy = me->group;
    struct fordlinnet_record table[SLOTS];
    uint8_t out[32], message[44] = {0};
    struct fordlinnet_read_answer r;
    memcpy(table, me->table, sizeof table);
    table[SLOT - 1] = before;
    copy.table = table;
    memset(out, '.', sizeof out);
    r = fordlinnet_read_direct(&copy, SLOT, out, sizeof out, message);
    expect(r.refusal == 0 && !r.torn && r.n == a.n && r.made == a.made, "the small answer says the same");
    expect(memcmp(out, wanted, sizeof out) == 0 && memcmp(message, a.message, sizeof message) == 0, "the same bytes");
    expect(same_table(table, me->table), "the same record");
}

static void read_all(struct end *me, const char *wanted) {
    uint8_t out[32];
    struct fordlinnet_answer a;
    struct fordlinnet_record before = me->table[SLOT - 1];
    memset(out, '.', sizeof out);
    a = fordlinnet_read(&me->group, SLOT, out, sizeof out);
    expect(a.said == FORDLINNET_WAS_READ && a.n == strlen(wanted) && memcmp(out, wanted, a.n) == 0, wanted);
    expect(a.n == sizeof out || out[a.n] == '.', "out beyond n stays");
    read_again(me, before, a, out);
    printf("%s: read %u bytes, \"%.*s\"\n", me->name, (unsigned)a.n, (int)a.n, (const char *)out);
    carry(me == &left ? &right : &left, a, out);
}

static const uint8_t *text(const char *s) { return (const uint8_t *)s; }

/* A head and a body as if joined. */
static void gather(struct end *me, struct end *peer, const char *head, const char *body) {
    uint8_t message[FORDLINNET_MESSAGE_LENGTH] = {0};
    struct fordlinnet_gather_answer g =
        fordlinnet_gather(&me->group, SLOT, text(head), strlen(head), text(body), strlen(body), message);
    struct fordlinnet_answer a = {.made = g.made};
    uint32_t k = 0;
    int i;
    expect(g.refusal == 0 && g.n == strlen(head) + strlen(body), "all bytes are taken");
    for (i = 0; i < 3 && g.pieces[i].len; i++) {
        struct fordlinnet_piece p = g.pieces[i];
        place(peer, p.key, p.address, text(p.buffer == FORDLINNET_HEAD ? head : body) + p.start, p.len);
        k += p.len;
    }
    expect(k == g.n, "the pieces are n bytes");
    memcpy(a.message, message, sizeof message);
    carry(peer, a, text(""));
}

static void pool_and_gauge(void) {
    struct fordlinnet_books books = fordlinnet_pool_free();
    struct fordlinnet_pool_answer a = fordlinnet_pool_take(books, 4), b = fordlinnet_pool_take(a.books, 2), c;
    struct fordlinnet_answer s;
    struct fordlinnet_view v;
    expect(a.said == FORDLINNET_BLOCK && a.start == 0 && b.said == FORDLINNET_BLOCK && b.start == 4, "two blocks");
    c = fordlinnet_pool_return(b.books, 0, 2);
    expect(c.said == FORDLINNET_REFUSED && c.refusal == FORDLINNET_NOT_GIVEN_OUT, "another size is not returned");
    c = fordlinnet_pool_return(b.books, 0, 4);
    expect(c.said == FORDLINNET_RETURNED && c.books.sizes[0] == 0 && c.books.sizes[4] == 2, "a block is returned");

    expect(fordlinnet_view_link(left.group.links, LINK).health == FORDLINNET_UNHEARD, "a link with no sample");
    s = fordlinnet_sample(&left.group, LINK, 12);
    expect(s.said == FORDLINNET_SAMPLED && s.health == FORDLINNET_STEADY && s.mean == 12, "a steady link");
    s = fordlinnet_sample(&left.group, LINK, 90);
    v = fordlinnet_view_link(left.group.links, LINK);
    expect(s.health == FORDLINNET_LATE && v.health == FORDLINNET_LATE && v.shown == 2 && v.mean == 21.75 && v.worst == 90, "a late link");
    printf("left: link %d is late, mean %g, worst %g\n", LINK, v.mean, v.worst);
}

/* The client's Proposal, the server's Accept, the client's Confirm: both ends then have the arguments of an open. */
static void set_up(void) {
    struct fordlinnet_settings client = {.size = 65536, .mask = {255, 255, 255, 0}, .masklen = 24, .slot = 3, .own = 5, .link = LINK};
    struct fordlinnet_settings server = {.size = 65536, .mask = {255, 255, 255, 0}, .masklen = 24, .slot = 2, .own = 6, .link = LINK};
    struct fordlinnet_setup_answer proposal = fordlinnet_setup(client, FORDLINNET_DUE_NOTHING, 0, 0);
    struct fordlinnet_setup_answer accept = fordlinnet_setup(server, FORDLINNET_DUE_PROPOSAL, proposal.message, proposal.count);
    struct fordlinnet_setup_answer confirm = fordlinnet_setup(client, FORDLINNET_DUE_ACCEPT, accept.message, accept.count);
    struct fordlinnet_setup_answer last = fordlinnet_setup(server, FORDLINNET_DUE_CONFIRM, confirm.message, confirm.count);
    expect(proposal.said == FORDLINNET_ANSWERED && !proposal.opens && accept.said == FORDLINNET_ANSWERED, "a Proposal, an Accept");
    expect(confirm.opens && confirm.arguments.token == 6 && confirm.arguments.index == 2, "the client may open");
    expect(last.opens && last.count == 0 && fordlinnet_opening_of(last.arguments).peer == 5, "the server may open");
    expect(fordlinnet_setup(client, 9, 0, 0).said == FORDLINNET_UNKNOWN, "no such message due");
    last = fordlinnet_setup(client, FORDLINNET_DUE_ACCEPT, proposal.message, proposal.count);
    expect(last.said == FORDLINNET_REFUSED && last.refusal == FORDLINNET_SETUP_NOT_DUE, "a Proposal is not due");
    printf("set-up: %zu, %zu and %zu bytes\n", proposal.count, accept.count, confirm.count);
}

/* What the network does with a link message. */
static struct fordlinnet_link_answer cross(struct end *peer, uint8_t link, struct fordlinnet_link_answer a) {
    struct fordlinnet_link_answer h;
    expect(a.made, "a link message is made");
    h = fordlinnet_link_message(&peer->group, link, a.message, sizeof a.message, peer->moved, sizeof peer->moved);
    expect(h.said == FORDLINNET_LINK_HEARD && h.count == 0, "a link message is heard");
    printf("%s: link message %u over link %u, fate %u, stage %u\n", peer->name, (unsigned)h.fields.kind, (unsigned)link, (unsigned)h.fate,
           (unsigned)h.links.exchange.stage);
    return h;
}

static struct fordlinnet_link_answer link_send(struct end *me, uint8_t link, struct fordlinnet_fields fields) {
    return fordlinnet_link_send(&me->group, link, fields, me->moved, sizeof me->moved);
}

static struct fordlinnet_link_answer say(struct end *me, uint8_t link, struct fordlinnet_fields fields) {
    struct fordlinnet_link_answer a = link_send(me, link, fields);
    expect(a.said == FORDLINNET_LINK_SENT && a.made && a.message[0] == fields.kind, "a link message is sent");
    return a;
}

/* TEST LINK is answered by a reply. The server adds link 2: ADD LINK and its reply over link 1, CONFIRM LINK and its reply over link 2. A
 * DELETE LINK that the client asks for meanwhile waits, and is taken up when link 2 is active. */
static void link_messages(void) {
    struct fordlinnet_fields test = {FORDLINNET_TEST_LINK, {0, 7, 8}};
    struct fordlinnet_fields add = {FORDLINNET_ADD_LINK, {0, 0, 0, 0xA1, 1, 2, 9, 2, 3, 4}};
    struct fordlinnet_fields added = {FORDLINNET_ADD_LINK, {1, 0, 0, 0xB1, 3, 4, 8, 2, 3, 5}};
    struct fordlinnet_fields confirm = {FORDLINNET_CONFIRM_LINK, {0, 0xA1, 1, 2, 9, 2, 6, 4}};
    struct fordlinnet_fields confirmed = {FORDLINNET_CONFIRM_LINK, {1, 0xB1, 3, 4, 8, 2, 7, 4}};
    struct fordlinnet_fields remove = {FORDLINNET_DELETE_LINK, {0, 0, 1, 2, 0}};
    struct fordlinnet_fields no_kind = {5, {0}};
    struct fordlinnet_link_answer a, h;

    a = say(&left, LINK, test);
    h = cross(&right, LINK, a);
    expect(h.made && h.message[3] == 0x80 && h.fields.values[1] == 7 && h.fields.values[2] == 8, "a reply to TEST LINK");
    a = fordlinnet_link_message(&right.group, LINK, a.message, 43, right.moved, sizeof right.moved);
    expect(a.said == FORDLINNET_REFUSED && a.refusal == FORDLINNET_MALFORMED && !a.made, "43 bytes are no link message");
    a = link_send(&left, LINK, no_kind);
    expect(a.said == FORDLINNET_UNKNOWN && !a.made, "05 is no named kind");
    a = link_send(&right, LINK, added);
    expect(a.said == FORDLINNET_REFUSED && a.refusal == FORDLINNET_BARRED, "a reply that nobody asked for");

    cross(&right, LINK, say(&left, LINK, add));
    a = link_send(&left, OTHER, confirm);
    expect(a.said == FORDLINNET_REFUSED && a.refusal == FORDLINNET_BARRED, "CONFIRM LINK before the reply to ADD LINK");
    h = cross(&left, LINK, say(&right, LINK, remove));
    expect(h.fate == FORDLINNET_QUEUED && left.group.links.queue.count == 1, "a DELETE LINK waits");
    cross(&left, LINK, say(&right, LINK, added));
    cross(&right, OTHER, say(&left, OTHER, confirm));
    a = say(&right, OTHER, confirmed);
    expect(right.group.links.active[1], "link 2 is active at the client");
    h = cross(&left, OTHER, a);
    expect(left.group.links.active[1] && left.group.links.exchange.stage == 0, "link 2 is active at the server");
    expect(h.up.some && h.up.link == LINK && h.up.fields.kind == FORDLINNET_DELETE_LINK && h.up.fate == FORDLINNET_TAKEN,
           "the DELETE LINK is taken up");
    expect(left.group.links.queue.count == 0, "none waits");
    printf("link 2 is active; a DELETE LINK is taken up\n");
}

/* Link 1 is down at one end: its connection moves to link 2, and the message with F goes over link 2. Every message before it was heard, so
 * that it names the last one heard and changes nothing there. */
static void moves(struct end *me, struct end *peer) {
    struct fordlinnet_link_answer a = fordlinnet_link_change(&me->group, LINK, false, me->moved, sizeof me->moved - 1);
    struct fordlinnet_record before = peer->table[SLOT - 1];
    struct fordlinnet_answer h;
    expect(a.said == FORDLINNET_REFUSED && a.refusal == FORDLINNET_WRONG_SIZES && me->group.links.active[LINK - 1], "room for S messages");
    expect(me->table[SLOT - 1].id.link == LINK, "a refused call moves nothing");
    a = change(me, LINK, false);
    expect(a.said == FORDLINNET_LINK_CHANGED && a.count == 1 && me->table[SLOT - 1].id.link == OTHER, "the connection moves");
    printf("%s: link %d is down, %u message with F, the connection is on link %u\n", me->name, LINK, (unsigned)a.count,
           (unsigned)me->table[SLOT - 1].id.link);
    h = hear(peer, me->moved, FORDLINNET_MESSAGE_LENGTH);
    expect(h.said == FORDLINNET_HEARD && h.moved == 0 && !h.made && same_record(before, peer->table[SLOT - 1]), "F changes nothing");
    printf("%s: heard F, state %u\n", peer->name, (unsigned)h.state);
}

/* Both ends move; then bytes go on by the peer's key on link 2. A message with F that comes after them costs the connection, so that a copy
 * hears it. */
static void failover(void) {
    struct end copy;
    struct fordlinnet_answer a;
    moves(&left, &right);
    moves(&right, &left);
    a = send(&left, "by another link");
    expect(a.said == FORDLINNET_SENT && a.n == 15 && a.first.key == memory_on(&right, OTHER).key, "by link 2's key");
    carry(&right, a, text("by another link"));
    copy = right;
    copy.group.table = copy.table;
    a = hear(&copy, left.moved, FORDLINNET_MESSAGE_LENGTH);
    expect(a.said == FORDLINNET_HEARD && a.state == FORDLINNET_PEER_ABORT_WAIT && a.made, "F after a later message");
    printf("%s: F heard too late, state %u\n", copy.name, (unsigned)a.state);
    read_all(&right, "by another link");
}

/* A connection that is aborted is freed. */
static void abort_and_free(void) {
    struct fordlinnet_answer a;
    open_towards(&left, &right);
    a = fordlinnet_free(&left.group, SLOT);
    expect(a.refusal == FORDLINNET_STATE_FORBIDS, "an active connection is not freed");
    a = finish(&left, FORDLINNET_ABORT);
    expect(a.said == FORDLINNET_ACCEPTED && a.made, "A is sent");
    a = fordlinnet_free(&left.group, SLOT);
    expect(a.said == FORDLINNET_ACCEPTED && !a.made && !left.table[SLOT - 1].id.opened, "an aborted one is");
    printf("left: aborted and freed\n");
}

/* A close with unread bytes resets the connection; an element whose eye catcher is damaged is torn. */
static void reset_and_torn(void) {
    struct fordlinnet_answer a;
    open_towards(&left, &right);
    open_towards(&right, &left);
    carry(&right, send(&left, "unread"), text("unread"));
    a = finish(&right, FORDLINNET_CLOSE);
    expect(a.said == FORDLINNET_RESET && a.made, "unread bytes");
    left.memory[(SLOT - 1) * SIZE] ^= 1;
    a = fordlinnet_read(&left.group, SLOT, 0, 0);
    expect(a.said == FORDLINNET_TORN && a.made, "a damaged eye catcher");
    a = hear(&left, a.message, 43);
    expect(a.said == FORDLINNET_REFUSED && a.refusal == FORDLINNET_MALFORMED, "43 bytes are no message");
    printf("right: reset; left: torn\n");
}

int main(void) {
    struct fordlinnet_answer a;
    static struct fordlinnet_record before[SLOTS];

    open_towards(&left, &right);
    open_towards(&right, &left);

    a = send(&left, "a chart");
    expect(a.said == FORDLINNET_SENT && a.n == 7 && a.placings == 1 && a.made, "seven bytes are sent");
    carry(&right, a, text("a chart"));
    read_all(&right, "a chart");

    /* of 60 data bytes 54 are used once these are read: of the next the head's first six lie before the element's end, the rest wraps */
    gather(&left, &right, "head of 20 bytes ...", "and a body of 27 bytes ....");
    read_all(&right, "head of 20 bytes ...and a body o");
    read_all(&right, "f 27 bytes ....");
    gather(&left, &right, "a wrap in the head, ", "an end");
    read_all(&right, "a wrap in the head, an end");

    a = sent(&right, FORDLINNET_URGENT_SEND, "!");
    expect(a.said == FORDLINNET_SENT && a.n == 1, "an urgent byte");
    carry(&left, a, text("!"));
    read_all(&left, "!");

    /* an unknown number changes nothing */
    memcpy(before, left.table, sizeof before);
    a = fordlinnet_call(&left.group, fordlinnet_command_of(99, SLOT), 0, 0, 0, 0);
    expect(a.said == FORDLINNET_UNKNOWN && !a.made && memcmp(before, left.table, sizeof before) == 0, "an unknown number");

    pool_and_gauge();
    set_up();
    link_messages();
    failover();

    a = finish(&left, FORDLINNET_SHUTDOWN);
    expect(a.said == FORDLINNET_ACCEPTED && a.made, "D is sent");
    carry(&right, a, 0);
    a = send(&left, "x");
    expect(a.refusal == FORDLINNET_STATE_FORBIDS, "no send after D");
    a = finish(&right, FORDLINNET_CLOSE);
    expect(a.said == FORDLINNET_ACCEPTED && a.made, "C is sent");
    carry(&left, a, 0);
    a = finish(&left, FORDLINNET_CLOSE);
    expect(a.said == FORDLINNET_ACCEPTED && a.made, "C is sent");
    carry(&right, a, 0);
    expect(!left.table[SLOT - 1].id.opened && !right.table[SLOT - 1].id.opened, "both slots are closed");
    printf("both ends are closed\n");

    abort_and_free();
    reset_and_torn();
    return 0;
}
