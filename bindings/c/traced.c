/* A traced run: a connection between two groups with every call of a group in it, then calls at random, records and bytes changed by hand
 * among them, and the pool's calls and set-up beside the groups. The files that FORDLINNET_TRACE names are made again by the model or by
 * replay, which must answer the same (bindings/c/replayed). */
#include <stdio.h>
#include <stdlib.h>
#include <string.h>

#include "fordlinnet_trace.h"

enum { SLOTS = 3, SIZE = 24, CALLS = 4000 };

struct end {
    uint8_t memory[SLOTS * SIZE];
    struct fordlinnet_record table[SLOTS];
    struct fordlinnet_group group;
    struct fordlinnet_trace trace;
    uint8_t moved[SLOTS * FORDLINNET_MESSAGE_LENGTH];
};

static struct end ends[2];
static struct fordlinnet_trace_beside beside;
static uint64_t seed = 1;

static uint32_t below(uint32_t n) {
    seed = seed * 6364136223846793005u + 1442695040888963407u;
    return (uint32_t)(seed >> 33) % n;
}

static struct fordlinnet_opening opening(uint32_t own, uint32_t peer, uint8_t link, uint32_t index) {
    struct fordlinnet_rtoken a = {.key = 70, .base = 4096}, b = {.key = 71, .base = 8192};
    struct fordlinnet_remote remote = {.size = SIZE, .index = index, .link1 = a, .link2 = b, .link3 = a, .link4 = b};
    struct fordlinnet_opening o = {.own = own, .peer = peer, .link = link, .remote = remote};
    return o;
}

static void begin(struct end *e, bool server) {
    e->group.s = SLOTS;
    e->group.n = SIZE;
    e->group.memory = e->memory;
    e->group.memory_length = sizeof e->memory;
    e->group.table = e->table;
    e->group.table_length = SLOTS;
    if (!fordlinnet_fresh(&e->group, server)) exit(1);
    if (!fordlinnet_trace_named(&e->trace, &e->group)) {
        fprintf(stderr, "traced: FORDLINNET_TRACE names no file that can be made\n");
        exit(2);
    }
}

/* The card writes into the peer's memory itself, and no call of the peer's says so. */
static void carry(struct end *from, struct end *to, const uint8_t *bytes, const struct fordlinnet_answer *a) {
    const struct fordlinnet_placing *p[2] = {&a->first, &a->second};
    uint32_t i;
    (void)from;
    for (i = 0; i < a->placings; i++) memcpy(to->memory + (p[i]->address & 4095), bytes + p[i]->start, p[i]->len);
    if (a->made) fordlinnet_hear(&to->group, a->message, sizeof a->message);
}

static void carry_sent(struct end *from, struct end *to, const uint8_t *bytes, struct fordlinnet_send_answer s, const uint8_t *message) {
    struct fordlinnet_answer a = {.placings = s.placings, .first = s.first, .second = s.second, .made = s.made};
    if (s.made) memcpy(a.message, message, sizeof a.message);
    carry(from, to, bytes, &a);
}

static void course(void) {
    struct end *a = &ends[0], *b = &ends[1];
    uint8_t out[40], message[FORDLINNET_MESSAGE_LENGTH];
    struct fordlinnet_answer x;
    struct fordlinnet_send_answer s;
    struct fordlinnet_fields f = {.kind = FORDLINNET_ADD_LINK};
    struct fordlinnet_link_answer l;
    int round;

    for (round = 0; round < 2; round++) {
        fordlinnet_link_change(&ends[round].group, 1, true, ends[round].moved, sizeof ends[round].moved);
        fordlinnet_open(&ends[round].group, 2, opening(5 + (uint32_t)round, 6 - (uint32_t)round, 1, 2));
        fordlinnet_sample(&ends[round].group, 1, 7);
        fordlinnet_sample(&ends[round].group, 1, 700);
        fordlinnet_sample(&ends[round].group, 1, 70000);
    }
    for (round = 0; round < 5; round++) {
        static const uint8_t bytes[] = "depths in met";
        x = fordlinnet_send(&a->group, 2, bytes, 13);
        carry(a, b, bytes, &x);
        if (round % 2) {
            fordlinnet_read_direct(&b->group, 2, out, sizeof out, message);
        } else {
            x = fordlinnet_read(&b->group, 2, out, sizeof out);
            carry(b, a, out, &x);
        }
    }
    s = fordlinnet_urgent_send(&b->group, 2, (const uint8_t *)"sand", 4, message);
    carry_sent(b, a, (const uint8_t *)"sand", s, message);
    x = fordlinnet_read(&a->group, 2, out, 3);
    carry(a, b, out, &x);
    x = fordlinnet_read(&a->group, 2, out, 0);
    x = fordlinnet_read(&a->group, 2, out, 9);
    carry(a, b, out, &x);
    fordlinnet_gather(&b->group, 2, (const uint8_t *)"head", 4, (const uint8_t *)"and the body", 12, message);

    /* the server adds link 2, and link 1 goes down: the connection moves */
    f.values[FORDLINNET_ADD_LINK_LINK] = 2;
    f.values[FORDLINNET_ADD_LINK_MTU] = 5;
    l = fordlinnet_link_send(&b->group, 1, f, b->moved, sizeof b->moved);
    fordlinnet_link_message(&a->group, 1, l.message, sizeof l.message, a->moved, sizeof a->moved);
    f.values[FORDLINNET_R] = 1;
    l = fordlinnet_link_send(&a->group, 1, f, a->moved, sizeof a->moved);
    fordlinnet_link_message(&b->group, 1, l.message, sizeof l.message, b->moved, sizeof b->moved);
    fordlinnet_link_change(&a->group, 2, true, a->moved, sizeof a->moved);
    l = fordlinnet_link_change(&a->group, 1, false, a->moved, sizeof a->moved);
    fordlinnet_link_change(&a->group, 1, true, a->moved, 7);
    if (l.count == 1) fordlinnet_hear(&b->group, a->moved, FORDLINNET_MESSAGE_LENGTH);
    if (fordlinnet_shutdown(&a->group, 2, message).made) fordlinnet_hear(&b->group, message, sizeof message);
    if (fordlinnet_close(&b->group, 2, message).made) fordlinnet_hear(&a->group, message, sizeof message);
    fordlinnet_abort(&a->group, 2, message);
    fordlinnet_free(&a->group, 2);
    fordlinnet_hear(&a->group, message, sizeof message);
}

/* Any call at any time. */
static void any(struct end *e, struct end *peer) {
    struct fordlinnet_group *g = &e->group;
    uint32_t slot = below(8) ? 1 + below(SLOTS) : below(SLOTS + 2), link = below(8) ? 1 + below(2) : below(6);
    uint8_t bytes[64], out[64], message[FORDLINNET_MESSAGE_LENGTH];
    size_t length = below(sizeof bytes), i;
    uint32_t k;
    struct fordlinnet_fields f = {.kind = (uint8_t)below(11)};
    struct fordlinnet_answer a;
    struct fordlinnet_link_answer l;
    for (i = 0; i < sizeof bytes; i++) bytes[i] = (uint8_t)below(256);
    switch (below(22)) {
        case 0:
            /* most often towards the same slot of the other end */
            k = slot * 2 + (e == &ends[1]);
            fordlinnet_open(g, slot, opening(k, below(8) ? k ^ 1 : below(9), (uint8_t)link, below(8) ? slot : below(300)));
            break;
        case 1: fordlinnet_free(g, slot); break;
        case 2: fordlinnet_link_change(g, (uint8_t)link, below(4) > 0, e->moved, sizeof e->moved); break;
        case 3: fordlinnet_sample(g, (uint8_t)link, below(90000)); break;
        case 4:
        case 5:
            a = fordlinnet_send(g, slot, bytes, length);
            if (a.made && below(8)) fordlinnet_hear(&peer->group, a.message, sizeof a.message);
            break;
        case 6: fordlinnet_urgent_send(g, slot, bytes, length, message); break;
        case 7: fordlinnet_send_direct(g, slot, bytes, length, message); break;
        case 8: fordlinnet_gather(g, slot, bytes, length / 2, bytes + length / 2, length - length / 2, message); break;
        case 9:
        case 10: fordlinnet_place(g, slot, below(SIZE + 2), bytes, below(SIZE)); break;
        case 11:
            a = fordlinnet_read(g, slot, out, length);
            if (a.made) fordlinnet_hear(&peer->group, a.message, sizeof a.message);
            break;
        case 12: fordlinnet_read_direct(g, slot, out, length, message); break;
        case 13: fordlinnet_hear(g, bytes, below(2) ? FORDLINNET_MESSAGE_LENGTH : length); break;
        case 14:
            if (fordlinnet_shutdown(g, slot, out).made) {
                fordlinnet_hear_direct(&peer->group, out, FORDLINNET_MESSAGE_LENGTH, message);
            }
            break;
        case 15:
            if (fordlinnet_close(g, slot, message).made) fordlinnet_hear(&peer->group, message, sizeof message);
            break;
        case 16:
            if (below(8)) break;
            if (fordlinnet_abort(g, slot, message).made && below(2)) fordlinnet_hear(&peer->group, message, sizeof message);
            break;
        case 17:
            for (i = 0; i < 12; i++) f.values[i] = below(5);
            l = fordlinnet_link_send(g, (uint8_t)link, f, e->moved, sizeof e->moved);
            if (l.made) fordlinnet_link_message(&peer->group, (uint8_t)link, l.message, sizeof l.message, peer->moved, sizeof peer->moved);
            break;
        case 18: fordlinnet_link_message(g, (uint8_t)link, bytes, length, e->moved, below(sizeof e->moved + 1)); break;
        case 19: e->memory[below(sizeof e->memory)] = bytes[0]; break; /* a card, or a stranger */
        case 20:
            if (below(20) == 0) e->table[below(SLOTS)].inbound.consumer.offset = below(SIZE + 4);
            if (below(4) == 0) memset(&e->table[below(SLOTS)], 0, sizeof e->table[0]);
            break;
        default: g->links.active[below(4)] = true; break;
    }
}

/* Blocks are taken and returned; sometimes the books are started over, or kept by somebody who cannot. */
static void pool(void) {
    static struct fordlinnet_books books;
    static uint32_t start, units;
    static struct fordlinnet_pool_answer a;
    uint32_t what = below(24);
    if (what == 0 || a.refusal == FORDLINNET_INCOHERENT) books = fordlinnet_fresh_books();
    if (what == 1) books.sizes[below(64)] = (uint8_t)below(66);
    if (what < 14) {
        units = what < 12 ? 1u << below(7) : below(70);
        a = fordlinnet_take_block(books, units);
        if (a.said == FORDLINNET_BLOCK) start = a.start;
    } else if (what < 20) {
        a = fordlinnet_return_block(books, start, units);
    } else {
        a = fordlinnet_return_block(books, below(66), 1u << below(8));
    }
    books = a.books;
}

/* Both ends of a set-up in turn, settings and messages changed among them. */
static void set_up(void) {
    static struct fordlinnet_settings ours[2];
    static uint8_t message[200];
    static size_t count;
    static uint32_t due;
    static const uint8_t decline[28] = {0xE2, 0xD4, 0xC3, 0xD9, 4, 0, 28, 16, 1, 2,    3,    4,    5,    6,
                                        7,    8,    3,    1,    0, 0, 0,  0,  0, 0, 0xE2, 0xD4, 0xC3, 0xD9};
    struct fordlinnet_settings *s;
    struct fordlinnet_setup_answer a;
    size_t i;
    for (s = ours; due == 0 && s < ours + 2; s++) {
        /* any settings; a bool is 0 or 1 */
        if (below(3)) continue;
        for (i = 0; i < sizeof *s; i++) ((uint8_t *)s)[i] = (uint8_t)(below(4) ? below(256) : 0);
        s->first = below(2);
        s->size = below(8) ? 16384u << below(3) : below(70000);
        s->count = (uint8_t)below(10);
        s->link = (uint8_t)(below(8) ? 1 + below(4) : below(256));
    }
    if (below(12) == 0 && count > 0) message[below((uint32_t)count)] ^= (uint8_t)(1u << below(8));
    if (below(20) == 0) count = below(sizeof message);
    if (below(20) == 0) {
        count = sizeof decline;
        memcpy(message, decline, count);
    }
    a = fordlinnet_setup(ours[due % 2], below(20) ? due : below(5), message, count);
    if (a.said == FORDLINNET_ANSWERED && a.count > 0) {
        count = a.count;
        memcpy(message, a.message, count);
    }
    due = (due + 1) % 4;
}

int main(void) {
    int i;
    if (!fordlinnet_trace_beside_named(&beside)) return 2;
    begin(&ends[0], false);
    begin(&ends[1], true);
    course();
    for (i = 0; i < CALLS; i++) {
        any(&ends[i % 2], &ends[1 - i % 2]);
        pool();
        set_up();
    }
    fordlinnet_trace_beside_end(&beside);
    for (i = 0; i < 2; i++) fordlinnet_trace_end(&ends[i].trace, &ends[i].group);
    return 0;
}
