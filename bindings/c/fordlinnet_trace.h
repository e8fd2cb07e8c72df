/*
 * Writes the calls of a group down as the program `replay` reads them (docs/replay-format.md): each call on a line, and below it its answer
 * behind "#> ", as replay prints it. What is changed by hand or by a card between calls is laid in by lines of its own, of the memory what
 * a read is about to see. So a run can be made again by the proved program, compared, and drawn.
 *
 *     struct fordlinnet_trace trace;
 *     fordlinnet_trace_named(&trace, &g);   -- where the variable FORDLINNET_TRACE names a file: that name, the process, and a number
 *     fordlinnet_trace_to(&trace, &g, file); -- or to a stream of your own
 *     ...
 *     fordlinnet_trace_end(&trace, &g);
 *
 * The pool and set-up stand beside the groups, and a trace of theirs does too: fordlinnet_trace_beside_named, fordlinnet_trace_beside_to,
 * fordlinnet_trace_beside_end.
 *
 * The trace stays where it is while the group is in use. A copy of a group is told of to the same trace: set its `tracer` null first.
 */
#ifndef FORDLINNET_TRACE_H
#define FORDLINNET_TRACE_H

#include <inttypes.h>
#include <stdio.h>
#include <stdlib.h>
#include <string.h>
#include <unistd.h>

#include "fordlinnet.h"

/* What a line takes at most: bytes of hexadecimal, of an out buffer, of memory, and records. */
enum {
    FORDLINNET_TRACE_BYTES = 70000,
    FORDLINNET_TRACE_ROOM = 65600,
    FORDLINNET_TRACE_MEMORY = 1048704,
    FORDLINNET_TRACE_RECORDS = 300
};

/* A record as a line has it, and what a group's links have: role, states, four gauges, exchange, queue. */
enum { FORDLINNET_TRACE_RECORD = 512, FORDLINNET_TRACE_LINES = 8, FORDLINNET_TRACE_LINE = 512 };

struct fordlinnet_trace {
    struct fordlinnet_tracer tracer;
    FILE *to;
    bool own;   /* the stream is ours to close */
    bool begun; /* the group's first lines are written */
    /* what the replay would have by now */
    uint8_t *memory;
    char (*table)[FORDLINNET_TRACE_RECORD];
    char links[FORDLINNET_TRACE_LINES][FORDLINNET_TRACE_LINE];
};

static inline size_t fordlinnet_trace_least(size_t a, size_t b) { return a < b ? a : b; }

static inline void fordlinnet_trace_hex(FILE *to, const uint8_t *bytes, size_t length) {
    size_t i;
    if (length == 0) fputc('-', to);
    for (i = 0; i < length; i++) fprintf(to, "%02X", bytes[i]);
}

static inline void fordlinnet_trace_cut(FILE *to, const uint8_t *bytes, size_t length) {
    fordlinnet_trace_hex(to, bytes, fordlinnet_trace_least(length, FORDLINNET_TRACE_BYTES));
}

static inline void fordlinnet_trace_made(FILE *to, bool made, const uint8_t *message) {
    fordlinnet_trace_hex(to, message, made ? FORDLINNET_MESSAGE_LENGTH : 0);
}

/* An out buffer after a read: the bytes read, and A5 behind. */
static inline void fordlinnet_trace_out(FILE *to, const uint8_t *out, size_t n, size_t room) {
    size_t i;
    room = fordlinnet_trace_least(room, FORDLINNET_TRACE_ROOM);
    if (room == 0) fputc('-', to);
    for (i = 0; i < room; i++) fprintf(to, "%02X", i < n ? out[i] : 0xA5);
}

static inline uint64_t fordlinnet_trace_bits(double d) {
    uint64_t bits;
    memcpy(&bits, &d, sizeof bits);
    return bits;
}

static inline void fordlinnet_trace_place(char *at, size_t room, struct fordlinnet_urgent u) {
    if (u.standing) {
        snprintf(at, room, "%" PRIu32 ":%u", u.place.offset, (unsigned)u.place.wrap);
    } else {
        snprintf(at, room, "-");
    }
}

static inline void fordlinnet_trace_record(char *at, const struct fordlinnet_record *r) {
    const struct fordlinnet_cursor c[5] = {r->inbound.producer, r->inbound.consumer, r->inbound.told, r->outbound.producer,
                                           r->outbound.consumer};
    const struct fordlinnet_rtoken t[4] = {r->remote.link1, r->remote.link2, r->remote.link3, r->remote.link4};
    const bool bits[9] = {r->marks.sent.done, r->marks.sent.closed, r->marks.heard.done, r->marks.heard.closed,   r->marks.first,
                          r->marks.abort,     r->outbound.blocked,  r->inbound.blocked,  r->inbound.request};
    char sent[24], heard[24];
    unsigned marks = 0;
    int i;
    size_t used;
    for (i = 0; i < 9; i++) marks += (unsigned)bits[i] << i;
    fordlinnet_trace_place(sent, sizeof sent, r->outbound.urgent);
    fordlinnet_trace_place(heard, sizeof heard, r->inbound.urgent);
    used = (size_t)snprintf(at, FORDLINNET_TRACE_RECORD, "%d %" PRIu32 " %" PRIu32 " %u %" PRIu32, r->id.opened, r->id.own, r->id.peer,
                            (unsigned)r->id.link, r->remote.size);
    for (i = 0; i < 5; i++) {
        used += (size_t)snprintf(at + used, FORDLINNET_TRACE_RECORD - used, " %" PRIu32 " %u", c[i].offset, (unsigned)c[i].wrap);
    }
    used += (size_t)snprintf(at + used, FORDLINNET_TRACE_RECORD - used, " %u %u %u %" PRIu32, (unsigned)r->outbound.next,
                             (unsigned)r->inbound.last, marks, r->remote.index);
    for (i = 0; i < 4; i++) {
        used += (size_t)snprintf(at + used, FORDLINNET_TRACE_RECORD - used, " %" PRIu32 " %" PRIu64, t[i].key, t[i].base);
    }
    snprintf(at + used, FORDLINNET_TRACE_RECORD - used, " %s %s", sent, heard);
}

static inline void fordlinnet_trace_links(char to[FORDLINNET_TRACE_LINES][FORDLINNET_TRACE_LINE], const struct fordlinnet_links *l) {
    int i, k;
    size_t used;
    snprintf(to[0], FORDLINNET_TRACE_LINE, "role %s", l->server ? "server" : "client");
    snprintf(to[1], FORDLINNET_TRACE_LINE, "links %d %d %d %d", l->active[0], l->active[1], l->active[2], l->active[3]);
    for (i = 0; i < 4; i++) {
        const struct fordlinnet_gauge *g = &l->gauges[i];
        snprintf(to[2 + i], FORDLINNET_TRACE_LINE, "gauge %d %016" PRIX64 " %016" PRIX64 " %u %d", i + 1, fordlinnet_trace_bits(g->mean),
                 fordlinnet_trace_bits(g->worst), (unsigned)g->count, g->late);
    }
    snprintf(to[6], FORDLINNET_TRACE_LINE, "exchange %u %u %u", (unsigned)l->exchange.stage, (unsigned)l->exchange.v,
             (unsigned)l->exchange.w);
    used = (size_t)snprintf(to[7], FORDLINNET_TRACE_LINE, "queue %u", (unsigned)l->queue.count);
    for (i = 0; i < 4; i++) {
        const struct fordlinnet_waiting *w = &l->queue.places[i];
        bool zeros = true;
        for (k = 0; k < FORDLINNET_MESSAGE_LENGTH; k++) zeros = zeros && w->bytes[k] == 0;
        used += (size_t)snprintf(to[7] + used, FORDLINNET_TRACE_LINE - used, " %u %s", (unsigned)w->link, zeros ? "-" : "");
        for (k = 0; !zeros && k < FORDLINNET_MESSAGE_LENGTH; k++) {
            used += (size_t)snprintf(to[7] + used, FORDLINNET_TRACE_LINE - used, "%02X", w->bytes[k]);
        }
    }
}

/* A line that is no call, and what replay says of it: its first word. */
static inline void fordlinnet_trace_lay(FILE *to, const char *line) {
    fprintf(to, "%s\n#> %.*s\n", line, (int)strcspn(line, " "), line);
}

/* What lies in the memory from `at` on, where it is not what the replay has there; what differs close together is one line. */
static inline void fordlinnet_trace_poke(struct fordlinnet_trace *t, const struct fordlinnet_group *g, size_t at, size_t length) {
    size_t i = at, end = at + length, from, to, k;
    while (i < end) {
        if (g->memory[i] == t->memory[i]) {
            i++;
            continue;
        }
        from = i;
        to = i + 1;
        for (k = to; k < end && k < to + 16; k++) {
            if (g->memory[k] != t->memory[k]) to = k + 1;
        }
        memcpy(t->memory + from, g->memory + from, to - from);
        fprintf(t->to, "poke %zu ", from);
        fordlinnet_trace_hex(t->to, t->memory + from, to - from);
        fputs("\n#> poke\n", t->to);
        i = to;
    }
}

static inline void fordlinnet_trace_keep(struct fordlinnet_trace *t, const struct fordlinnet_group *g, bool tell) {
    char now[FORDLINNET_TRACE_LINES][FORDLINNET_TRACE_LINE], record[FORDLINNET_TRACE_RECORD];
    size_t i;
    for (i = 0; i < g->table_length; i++) {
        fordlinnet_trace_record(record, &g->table[i]);
        if (strcmp(record, t->table[i]) == 0) continue;
        if (tell) fprintf(t->to, "record %zu %s\n#> record\n", i + 1, record);
        strcpy(t->table[i], record);
    }
    fordlinnet_trace_links(now, &g->links);
    for (i = 0; i < FORDLINNET_TRACE_LINES; i++) {
        if (strcmp(now[i], t->links[i]) == 0) continue;
        if (tell) fordlinnet_trace_lay(t->to, now[i]);
        strcpy(t->links[i], now[i]);
    }
}

/* How many values a kind has; 0 for a kind that is none. */
static inline int fordlinnet_trace_values(uint8_t kind) {
    static const uint8_t counts[10] = {0, 8, 10, 9, 5, 0, 12, 3, 12, 12};
    return kind < 10 ? counts[kind] : 0;
}

static inline void fordlinnet_trace_fields(FILE *to, const struct fordlinnet_fields *f) {
    int i, count = fordlinnet_trace_values(f->kind);
    if (count == 0) {
        fputc('-', to);
        return;
    }
    fprintf(to, "%02X", f->kind);
    for (i = 0; i < count; i++) fprintf(to, "%c%" PRIu64, i == 0 ? ':' : ',', f->values[i]);
}

static inline void fordlinnet_trace_link_line(FILE *to, const struct fordlinnet_group *g, const struct fordlinnet_seen *call) {
    const struct fordlinnet_link_command *c = call->link_command;
    size_t slots = fordlinnet_trace_least(g->s, FORDLINNET_TRACE_RECORDS);
    if (c->number == FORDLINNET_LINK_CHANGE) {
        fprintf(to, "link %u %d", (unsigned)c->link, c->up);
    } else if (c->number == FORDLINNET_LINK_MESSAGE) {
        fprintf(to, "linkmsg %u ", (unsigned)c->link);
        fordlinnet_trace_cut(to, call->bytes, call->length);
    } else {
        fprintf(to, "linksend %u ", (unsigned)c->link);
        fordlinnet_trace_fields(to, &c->fields);
    }
    if (call->room != FORDLINNET_MESSAGE_LENGTH * slots) {
        fprintf(to, " %zu", fordlinnet_trace_least(call->room, FORDLINNET_TRACE_ROOM));
    }
}

static inline void fordlinnet_trace_line(FILE *to, const struct fordlinnet_seen *call) {
    const struct fordlinnet_command *c = call->command;
    const struct fordlinnet_remote *r = &c->opening.remote;
    const struct fordlinnet_rtoken t[4] = {r->link1, r->link2, r->link3, r->link4};
    int i;
    switch (c->number) {
        case FORDLINNET_OPEN:
            fprintf(to, "open %" PRIu32 " %" PRIu32 " %" PRIu32 " %u %" PRIu32 " %" PRIu32, c->slot, c->opening.own, c->opening.peer,
                    (unsigned)c->opening.link, r->size, r->index);
            for (i = 0; i < 4; i++) fprintf(to, " %" PRIu32 " %" PRIu64, t[i].key, t[i].base);
            break;
        case FORDLINNET_FREE: fprintf(to, "free %" PRIu32, c->slot); break;
        case FORDLINNET_SAMPLE: fprintf(to, "sample %u %" PRIu32, (unsigned)c->link, c->ms); break;
        case FORDLINNET_SEND:
        case FORDLINNET_URGENT_SEND:
            fprintf(to, "%s %" PRIu32 " ", c->number == FORDLINNET_SEND ? "send" : "urgent", c->slot);
            fordlinnet_trace_cut(to, call->bytes, call->length);
            break;
        case FORDLINNET_GATHER:
            fprintf(to, "gather %" PRIu32 " ", c->slot);
            fordlinnet_trace_cut(to, call->bytes, call->length);
            fputc(' ', to);
            fordlinnet_trace_cut(to, call->body, call->body_length);
            break;
        case FORDLINNET_PLACE:
            fprintf(to, "place %" PRIu32 " %" PRIu32 " ", c->slot, c->offset);
            fordlinnet_trace_cut(to, call->bytes, call->length);
            break;
        case FORDLINNET_READ:
            fprintf(to, "read %" PRIu32 " %zu", c->slot, fordlinnet_trace_least(call->room, FORDLINNET_TRACE_ROOM));
            break;
        case FORDLINNET_SHUTDOWN: fprintf(to, "shutdown %" PRIu32, c->slot); break;
        case FORDLINNET_CLOSE: fprintf(to, "close %" PRIu32, c->slot); break;
        case FORDLINNET_ABORT: fprintf(to, "abort %" PRIu32, c->slot); break;
        case FORDLINNET_HEAR:
            fputs("hear ", to);
            fordlinnet_trace_cut(to, call->bytes, call->length);
            break;
        default: break;
    }
}

/* Of a number that names no call nothing is told: nothing is done. */
static inline bool fordlinnet_trace_knows(const struct fordlinnet_seen *call) {
    uint32_t k;
    if (call->link_command) {
        k = call->link_command->number;
        if (k == FORDLINNET_LINK_SEND) return fordlinnet_trace_values(call->link_command->fields.kind) > 0;
        return k == FORDLINNET_LINK_CHANGE || k == FORDLINNET_LINK_MESSAGE;
    }
    k = call->command->number;
    return (FORDLINNET_OPEN <= k && k <= FORDLINNET_HEAR && k != FORDLINNET_LINK_CHANGE) || k == FORDLINNET_GATHER;
}

static inline void fordlinnet_trace_before(struct fordlinnet_tracer *to, const struct fordlinnet_group *g,
                                           const struct fordlinnet_seen *call) {
    struct fordlinnet_trace *t = (struct fordlinnet_trace *)to;
    if (!fordlinnet_trace_knows(call)) return;
    if (!t->begun) {
        if (g->memory_length > FORDLINNET_TRACE_MEMORY || g->table_length > FORDLINNET_TRACE_RECORDS) {
            fprintf(t->to, "# %zu bytes of memory and %zu records: more than replay takes\n", g->memory_length, g->table_length);
        }
        fprintf(t->to, "group %" PRIu32 " %" PRIu32 " %zu %zu\n#> group\n", g->s, g->n, g->memory_length, g->table_length);
        t->begun = true;
    }
    fordlinnet_trace_keep(t, g, true);
    if (call->link_command) {
        fordlinnet_trace_link_line(t->to, g, call);
    } else {
        uint32_t slot = call->command->slot;
        if (call->command->number == FORDLINNET_READ && slot > 0 && (uint64_t)slot * g->n <= g->memory_length) {
            fordlinnet_trace_poke(t, g, (size_t)(slot - 1) * g->n, g->n);
        }
        fordlinnet_trace_line(t->to, call);
    }
    fputc('\n', t->to);
}

static inline void fordlinnet_trace_link_said(FILE *to, const struct fordlinnet_seen *call) {
    static const char *const fates[5] = {"-", "taken", "queued", "denied", "dropped"};
    const struct fordlinnet_link_answer *a = call->link_answer;
    if (a->said == FORDLINNET_REFUSED) {
        fprintf(to, "refused %" PRIu32 " out -", a->refusal);
        return;
    }
    if (a->said == FORDLINNET_LINK_HEARD) {
        fputs("linkmsg ", to);
        fordlinnet_trace_fields(to, &a->fields);
        fprintf(to, " %s reply ", fates[a->fate % 5]);
        fordlinnet_trace_made(to, a->made, a->message);
    } else if (a->said == FORDLINNET_LINK_SENT) {
        fputs("linksend ", to);
        fordlinnet_trace_made(to, a->made, a->message);
    } else {
        fputs("link", to);
    }
    if (a->up.some) {
        fprintf(to, " then %u ", (unsigned)a->up.link);
        fordlinnet_trace_fields(to, &a->up.fields);
        fprintf(to, " %s", fates[a->up.fate % 5]);
    }
    fprintf(to, " count %" PRIu32 " out ", a->count);
    fordlinnet_trace_hex(to, call->out, (size_t)a->count * FORDLINNET_MESSAGE_LENGTH);
}

static inline void fordlinnet_trace_pieces(FILE *to, const struct fordlinnet_seen *call) {
    const struct fordlinnet_gather_answer *a = call->gathered;
    for (int i = 0; i < 3 && a->pieces[i].len; i++) {
        const struct fordlinnet_piece p = a->pieces[i];
        fprintf(to, "%" PRIu32 ",%" PRIu64 ",", p.key, p.address);
        fordlinnet_trace_hex(to, (p.buffer == FORDLINNET_HEAD ? call->bytes : call->body) + p.start, p.len);
        fputs(";", to);
    }
    fprintf(to, "%" PRIu32 ",%" PRIu64 ",-", a->last.key, a->last.address);
}

static inline void fordlinnet_trace_said(FILE *to, const struct fordlinnet_seen *call) {
    static const char *const words[16] = {"",     "open", "free",     "",      "sample", "send", "urgent", "place",
                                          "read", "shutdown", "close", "abort", "hear",   "",     "",       "gather"};
    const struct fordlinnet_answer *a = call->answer;
    const char *word = words[call->command->number];
    if (a->said == FORDLINNET_REFUSED) {
        fprintf(to, "refused %" PRIu32, a->refusal);
        if (call->command->number != FORDLINNET_READ) return;
        fputs(" out ", to);
        fordlinnet_trace_out(to, call->out, 0, call->room);
        return;
    }
    fputs(a->said == FORDLINNET_RESET ? "reset" : a->said == FORDLINNET_TORN ? "torn" : word, to);
    switch (a->said) {
        case FORDLINNET_SENT:
            fprintf(to, " %" PRIu32 " placings %s", a->n, a->placings == 0 ? "-" : "");
            if (a->placings > 0) {
                fprintf(to, "%" PRIu32 ",%" PRIu64 ",%" PRIu32 ",%" PRIu32, a->first.key, a->first.address, a->first.start, a->first.len);
            }
            if (a->placings > 1) {
                fprintf(to, ";%" PRIu32 ",%" PRIu64 ",%" PRIu32 ",%" PRIu32, a->second.key, a->second.address, a->second.start,
                        a->second.len);
            }
            break;
        case FORDLINNET_GATHERED:
            fprintf(to, " %" PRIu32 " pieces ", a->n);
            fordlinnet_trace_pieces(to, call);
            break;
        case FORDLINNET_WAS_READ: fprintf(to, " %" PRIu32, a->n); /* fall through */
        case FORDLINNET_TORN:
            fputs(" out ", to);
            fordlinnet_trace_out(to, call->out, a->n, call->room);
            break;
        case FORDLINNET_HEARD: fprintf(to, " %" PRIu64 " %s", a->moved, fordlinnet_state_words(a->state)); break;
        case FORDLINNET_SAMPLED:
            fprintf(to, " %s", a->health == FORDLINNET_UNHEARD ? "unheard" : a->health == FORDLINNET_STEADY ? "steady" : "late");
            if (a->health != FORDLINNET_UNHEARD) fprintf(to, " %016" PRIX64, fordlinnet_trace_bits(a->mean));
            if (a->health == FORDLINNET_LATE) fprintf(to, " %016" PRIX64, fordlinnet_trace_bits(a->worst));
            return;
        default:
            if (!a->made) return;
            break;
    }
    fputs(" message ", to);
    fordlinnet_trace_made(to, a->made, a->message);
}

static inline void fordlinnet_trace_after(struct fordlinnet_tracer *to, const struct fordlinnet_group *g,
                                          const struct fordlinnet_seen *call) {
    struct fordlinnet_trace *t = (struct fordlinnet_trace *)to;
    if (!fordlinnet_trace_knows(call)) return;
    fputs("#> ", t->to);
    if (call->link_command) {
        fordlinnet_trace_link_said(t->to, call);
    } else {
        static const uint8_t eye[4] = {0xE2, 0xD4, 0xC3, 0xD9};
        const struct fordlinnet_command *c = call->command;
        fordlinnet_trace_said(t->to, call);
        /* the two calls that change memory have done to the replay's what they did to ours */
        if (call->answer->said == FORDLINNET_ACCEPTED && c->number == FORDLINNET_OPEN) {
            memset(t->memory + (size_t)(c->slot - 1) * g->n, 0, g->n);
            memcpy(t->memory + (size_t)(c->slot - 1) * g->n, eye, sizeof eye);
        } else if (call->answer->said == FORDLINNET_ACCEPTED && c->number == FORDLINNET_PLACE && call->length > 0) {
            memcpy(t->memory + (size_t)(c->slot - 1) * g->n + c->offset, call->bytes, call->length);
        }
    }
    fputc('\n', t->to);
    fordlinnet_trace_keep(t, g, false);
}

/* Writes the group's calls to a stream from now on. False, with nothing done, where there is no memory for it. */
static inline bool fordlinnet_trace_to(struct fordlinnet_trace *t, struct fordlinnet_group *g, FILE *to) {
    struct fordlinnet_record closed;
    struct fordlinnet_links down;
    size_t i;
    memset(t, 0, sizeof *t);
    memset(&closed, 0, sizeof closed);
    memset(&down, 0, sizeof down);
    t->memory = (uint8_t *)calloc(g->memory_length + 1, 1);
    t->table = (char(*)[FORDLINNET_TRACE_RECORD])malloc((g->table_length + 1) * sizeof *t->table);
    if (!t->memory || !t->table) {
        free(t->memory);
        free(t->table);
        return false;
    }
    for (i = 0; i < g->table_length; i++) fordlinnet_trace_record(t->table[i], &closed);
    fordlinnet_trace_links(t->links, &down);
    t->to = to;
    t->tracer.before = fordlinnet_trace_before;
    t->tracer.after = fordlinnet_trace_after;
    g->tracer = &t->tracer;
    return true;
}

/* The same to a new file, where the variable FORDLINNET_TRACE has a name: that name, the process's number, and one that is not taken. False
 * where it has none, or no file can be made. */
static inline bool fordlinnet_trace_named(struct fordlinnet_trace *t, struct fordlinnet_group *g) {
    const char *named = getenv("FORDLINNET_TRACE");
    char name[1024];
    FILE *to = NULL;
    int k;
    memset(t, 0, sizeof *t);
    if (!named || !*named) return false;
    for (k = 1; !to && k < 1000; k++) {
        int length = snprintf(name, sizeof name, "%s.%ld.%d", named, (long)getpid(), k);
        if (length < 0 || (size_t)length >= sizeof name) return false;
        to = fopen(name, "wx");
    }
    if (!to) return false;
    if (!fordlinnet_trace_to(t, g, to)) {
        fclose(to);
        return false;
    }
    t->own = true;
    return true;
}

/* Ends it. Harmless where none was begun by fordlinnet_trace_named. */
static inline void fordlinnet_trace_end(struct fordlinnet_trace *t, struct fordlinnet_group *g) {
    if (!t->to) return;
    if (t->own) {
        fclose(t->to);
    } else {
        fflush(t->to);
    }
    free(t->memory);
    free(t->table);
    if (g->tracer == &t->tracer) g->tracer = NULL;
    t->to = NULL;
}

/* The calls that stand beside the groups: the pool's and set-up. Books and settings that are not what the last call left are laid in. */
struct fordlinnet_trace_beside {
    struct fordlinnet_beside_tracer tracer;
    FILE *to;
    bool own;                      /* the stream is ours to close */
    struct fordlinnet_books books; /* what the replay would have by now */
    char settings[1024];
};

static inline void fordlinnet_trace_lent(struct fordlinnet_trace_beside *t, const struct fordlinnet_books *books) {
    static const struct fordlinnet_books none = {{0}};
    if (memcmp(books, &t->books, sizeof *books) == 0) return;
    t->books = *books;
    if (memcmp(books, &none, sizeof none) == 0) {
        fputs("pool\n#> pool\n", t->to);
    } else {
        fputs("books ", t->to);
        fordlinnet_trace_hex(t->to, books->sizes, sizeof books->sizes);
        fputs("\n#> books\n", t->to);
    }
}

static inline void fordlinnet_trace_block(struct fordlinnet_trace_beside *t, const struct fordlinnet_pool_answer *a) {
    if (a->said == FORDLINNET_REFUSED) {
        fprintf(t->to, "#> refused %" PRIu32 "\n", a->refusal);
    } else if (a->said == FORDLINNET_BLOCK) {
        fprintf(t->to, "#> take %" PRIu32 "\n", a->start);
    } else {
        fputs("#> return\n", t->to);
    }
    t->books = a->books;
}

static inline void fordlinnet_trace_took(struct fordlinnet_beside_tracer *to, const struct fordlinnet_books *before, uint32_t units,
                                         const struct fordlinnet_pool_answer *a) {
    struct fordlinnet_trace_beside *t = (struct fordlinnet_trace_beside *)to;
    fordlinnet_trace_lent(t, before);
    fprintf(t->to, "take %" PRIu32 "\n", units);
    fordlinnet_trace_block(t, a);
}

static inline void fordlinnet_trace_returned(struct fordlinnet_beside_tracer *to, const struct fordlinnet_books *before, uint32_t start,
                                             uint32_t units, const struct fordlinnet_pool_answer *a) {
    struct fordlinnet_trace_beside *t = (struct fordlinnet_trace_beside *)to;
    fordlinnet_trace_lent(t, before);
    fprintf(t->to, "return %" PRIu32 " %" PRIu32 "\n", start, units);
    fordlinnet_trace_block(t, a);
}

/* The words of a `settings` line. */
static inline void fordlinnet_trace_settings(char *at, size_t room, const struct fordlinnet_settings *s) {
    const uint8_t *const bytes[5] = {s->peer, s->gid, s->mac, s->mask, s->prefixes};
    size_t lengths[5] = {sizeof s->peer, sizeof s->gid, sizeof s->mac, sizeof s->mask, sizeof s->prefixes}, used, k;
    const uint32_t keys[4] = {s->key1, s->key2, s->key3, s->key4};
    const uint64_t bases[4] = {s->base1, s->base2, s->base3, s->base4};
    int i;
    while (lengths[4] > 0 && s->prefixes[lengths[4] - 1] == 0) lengths[4]--;
    used = (size_t)snprintf(at, room, "%" PRIu32, s->size);
    for (i = 0; i < 5; i++) {
        if (i == 4) used += (size_t)snprintf(at + used, room - used, " %u %u", (unsigned)s->masklen, (unsigned)s->count);
        used += (size_t)snprintf(at + used, room - used, lengths[i] ? " " : " -");
        for (k = 0; k < lengths[i]; k++) used += (size_t)snprintf(at + used, room - used, "%02X", bytes[i][k]);
    }
    used += (size_t)snprintf(at + used, room - used, " %d %" PRIu32 " %u %" PRIu32 " %" PRIu32 " %" PRIu64 " %u %" PRIu32 " %u", s->first,
                             s->qp, (unsigned)s->mtu, s->psn, s->key, s->base, (unsigned)s->slot, s->own, (unsigned)s->link);
    for (i = 0; i < 4; i++) used += (size_t)snprintf(at + used, room - used, " %" PRIu32 " %" PRIu64, keys[i], bases[i]);
}

static inline void fordlinnet_trace_set_up(struct fordlinnet_beside_tracer *to, const struct fordlinnet_settings *settings, uint32_t due,
                                           const uint8_t *bytes, size_t length, const struct fordlinnet_setup_answer *a) {
    static const char *const names[4] = {"none", "Proposal", "Accept", "Confirm"};
    struct fordlinnet_trace_beside *t = (struct fordlinnet_trace_beside *)to;
    const struct fordlinnet_arguments *o = &a->arguments;
    char words[sizeof t->settings];
    /* of a number that names no message nothing is told: nothing is done */
    if (due > 3) return;
    fordlinnet_trace_settings(words, sizeof words, settings);
    if (strcmp(words, t->settings) != 0) {
        fprintf(t->to, "settings %s\n#> settings\n", words);
        strcpy(t->settings, words);
    }
    fprintf(t->to, "setup %s ", names[due]);
    fordlinnet_trace_cut(t->to, bytes, length);
    if (a->said == FORDLINNET_REFUSED) {
        fprintf(t->to, "\n#> refused %" PRIu32 "\n", a->refusal);
        return;
    }
    fputs("\n#> setup message ", t->to);
    fordlinnet_trace_hex(t->to, a->message, a->count);
    if (a->opens) {
        fprintf(t->to, " open %u,%" PRIu32 ",%" PRIu32 ",%u,%" PRIu32 ",%u", (unsigned)o->slot, o->own, o->token, (unsigned)o->link,
                o->size, (unsigned)o->index);
        fprintf(t->to, ",%" PRIu32 ",%" PRIu64 ",%" PRIu32 ",%" PRIu64, o->key1, o->base1, o->key2, o->base2);
        fprintf(t->to, ",%" PRIu32 ",%" PRIu64 ",%" PRIu32 ",%" PRIu64, o->key3, o->base3, o->key4, o->base4);
    } else {
        fputs(" open -", t->to);
    }
    if (a->declined) {
        fprintf(t->to, " decline %" PRIu32 "\n", a->diagnosis);
    } else {
        fputs(" decline -\n", t->to);
    }
}

/* Writes the calls beside the groups to a stream from now on. It may be a group's: then all stand in one list. */
static inline void fordlinnet_trace_beside_to(struct fordlinnet_trace_beside *t, FILE *to) {
    struct fordlinnet_settings zeros;
    memset(t, 0, sizeof *t);
    memset(&zeros, 0, sizeof zeros);
    fordlinnet_trace_settings(t->settings, sizeof t->settings, &zeros);
    t->to = to;
    t->tracer.took = fordlinnet_trace_took;
    t->tracer.returned = fordlinnet_trace_returned;
    t->tracer.set_up = fordlinnet_trace_set_up;
    fordlinnet_beside = &t->tracer;
}

/* The same to a new file, where the variable FORDLINNET_TRACE has a name: that name, the process's number, and 0. False where it has none,
 * or the file cannot be made. */
static inline bool fordlinnet_trace_beside_named(struct fordlinnet_trace_beside *t) {
    const char *named = getenv("FORDLINNET_TRACE");
    char name[1024];
    FILE *to;
    int length;
    memset(t, 0, sizeof *t);
    if (!named || !*named) return false;
    length = snprintf(name, sizeof name, "%s.%ld.0", named, (long)getpid());
    if (length < 0 || (size_t)length >= sizeof name || !(to = fopen(name, "wx"))) return false;
    fordlinnet_trace_beside_to(t, to);
    t->own = true;
    return true;
}

/* Ends it. Harmless where none was begun by fordlinnet_trace_beside_named. */
static inline void fordlinnet_trace_beside_end(struct fordlinnet_trace_beside *t) {
    if (!t->to) return;
    if (t->own) {
        fclose(t->to);
    } else {
        fflush(t->to);
    }
    if (fordlinnet_beside == &t->tracer) fordlinnet_beside = NULL;
    t->to = NULL;
}

#endif
