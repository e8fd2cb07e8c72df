/*
 * Fordlinnet, the SMC-R core (RFC 7609): the proved calls for C and C++. x86-64 Linux; link with libfordlinnet.a (`bindings/archive`).
 *
 * A group is S elements of N bytes of receive memory, a table of S records, and four links with a gauge each, our role, the exchange of
 * link messages that runs, and those that wait for its end. The caller owns all of it and lends it to every call (struct
 * fordlinnet_group); no call keeps a pointer, allocates, or knows a group beyond what it is lent. Every call comes back, whatever numbers,
 * bytes, records and memory it is lent. Asked of the caller is only what C's types cannot say:
 *
 *   - a pointer is valid for its length, and not null even where that is 0; a table's is aligned as its struct is;
 *   - memory, table and out bytes, a link call's buffer among them, overlap neither each other nor bytes lent for reading, and no other
 *     thread touches them meanwhile;
 *   - a bool handed in, in a record or in links too, is 0 or 1.
 *
 * A refused call leaves memory, table, links and out bytes as they were, and its answer has said == FORDLINNET_REFUSED and the number in
 * refusal. What a message's bytes are for (made == true: 44 bytes in message) is the caller's: they go to the peer over the
 * connection's link, and a link message's reply over the link that it came from.
 *
 * When an element may be used again (RFC 7609, 4.4.2). A slot that closed by C sent and C heard, or by A heard, has nothing of its
 * connection under way to it, if the peer keeps the order of writes and messages: that is proved (NothingUnderWay, in
 * crates/thm_sent/specs/Reuse.antt), and it may be opened again. A slot closed by fordlinnet_free may be opened again only when no write
 * of the old connection can arrive: the queue pair is down, or the key was revoked. No call can know that, and none is refused: a write
 * that does arrive is read as the new connection's bytes (bindings/c/reuse.c shows it). fordlinnet_free_when_no_write_can_arrive is free
 * under a name that says what the caller swears.
 *
 * ABI. FORDLINNET_ABI is the number of this header's structs and functions; an archive has a symbol fordlinnet_abi_<number>, and a program
 * that calls fordlinnet_fresh does not link with another's. CHANGELOG.md says when it moves.
 *
 * Failover (RFC 7609, 4.6). Where link change, link message or link send takes links down, each open, coherent connection on them moves to
 * the lowest-numbered active link, which its record then names. For each that did not send A a message with F stands in the call's buffer,
 * and the caller puts it on the new link
 *
 *   - after the connection's writes on the old link, bytes and messages, are done or were put again in order;
 *   - before any later message of the connection.
 *
 * F carries the number of the last message made, and the peer aborts the connection where it heard less, or more.
 * Where no link is active connections stay; once one is, setting theirs active and down again moves them. An open is given a key and an
 * address for each of the four links, and after a move placings have the new link's: keys heard in link messages later are not kept.
 */
#ifndef FORDLINNET_H
#define FORDLINNET_H

#include <stdbool.h>
#include <stddef.h>
#include <stdint.h>

#ifdef __cplusplus
extern "C" {
#endif

/* The number of what follows, and the archive's word for it: see the head. */
#define FORDLINNET_ABI 2
extern const uint32_t fordlinnet_abi_2;

/* THE NUMBERS */

/* What a command asks (fordlinnet_command.number). Any other number: the answer says FORDLINNET_UNKNOWN, and nothing changes. */
enum {
    FORDLINNET_OPEN = 1,        /* slot, opening */
    FORDLINNET_FREE = 2,        /* slot */
    FORDLINNET_SAMPLE = 4,      /* link, ms */
    FORDLINNET_SEND = 5,        /* slot; bytes */
    FORDLINNET_URGENT_SEND = 6, /* slot; bytes */
    FORDLINNET_PLACE = 7,       /* slot, offset; bytes */
    FORDLINNET_READ = 8,        /* slot; out */
    FORDLINNET_SHUTDOWN = 9,    /* slot */
    FORDLINNET_CLOSE = 10,      /* slot */
    FORDLINNET_ABORT = 11,      /* slot */
    FORDLINNET_HEAR = 12        /* bytes */
};

/* What a command on the links asks (fordlinnet_link_command.number). Any other number, or a kind to send that is none of the messages':
 * the answer says FORDLINNET_UNKNOWN, and nothing changes. */
enum {
    FORDLINNET_LINK_CHANGE = 3,   /* link, up */
    FORDLINNET_LINK_MESSAGE = 13, /* link; bytes */
    FORDLINNET_LINK_SEND = 14     /* link, fields */
};

/* The bytes of every message, CDC and link messages alike. */
enum { FORDLINNET_MESSAGE_LENGTH = 44 };

/* The links, and the message values that any kind of link message has at most. */
enum { FORDLINNET_LINKS = 4, FORDLINNET_VALUES = 12 };

/* What an answer says, and the fields that then hold something; all others are zero. In every answer of a group's call `links` holds the
 * links as they are now, and `message` the 44 bytes where `made`. */
enum {
    FORDLINNET_UNKNOWN = 0,   /* the number handed in is none of those above (set-up: of the messages due) */
    FORDLINNET_REFUSED = 1,   /* refusal */
    FORDLINNET_ACCEPTED = 2,  /* nothing beside the message, where one is made */
    FORDLINNET_SENT = 3,      /* n bytes taken; placings: 0, 1 or 2 of first and second */
    FORDLINNET_GATHERED = 4,  /* n bytes taken: what a tracer is told of a gather */
    FORDLINNET_WAS_READ = 5,  /* n bytes now stand at the front of out */
    FORDLINNET_TORN = 6,      /* read: the eye catcher is damaged; an abort message is made */
    FORDLINNET_HEARD = 7,     /* moved: how far the peer's producer moved; state */
    FORDLINNET_RESET = 8,     /* close with unread bytes; an abort message is made */
    FORDLINNET_SAMPLED = 9,   /* health; mean where steady or late; worst where late */
    FORDLINNET_BLOCK = 10,    /* pool: the block given out starts at unit start */
    FORDLINNET_RETURNED = 11, /* pool: the block's units are free */
    FORDLINNET_ANSWERED = 12, /* set-up: see fordlinnet_setup_answer */
    FORDLINNET_LINK_HEARD = 13, /* link message: see fordlinnet_link_answer */
    FORDLINNET_LINK_SENT = 14,  /* link send: the same */
    FORDLINNET_LINK_CHANGED = 15 /* link change: count */
};

/* The refusals of a group's calls and of the pool's, each given exactly when: */
enum {
    FORDLINNET_WRONG_SIZES = 1,    /* S, N, the memory's length or the table's is wrong; in the calls on links, the buffer has less than
                                      FORDLINNET_MESSAGE_LENGTH x S bytes */
    FORDLINNET_NOT_OPEN = 2,       /* slot outside 1 to S, or closed (for open: outside only) */
    FORDLINNET_INCOHERENT = 3,     /* the open record is not coherent; pool: books with blocks that overlap, leave the pool, have another
                                      size or start off a multiple of theirs */
    FORDLINNET_MALFORMED = 4,      /* bytes are not 44; byte 0 is not FE (hear), or unknown or FE (link message); byte 1 is not 2C
                                      (optional link messages aside) */
    FORDLINNET_NO_TOKEN = 5,       /* no open slot has the token, or it is 0 */
    FORDLINNET_LINK_DOWN = 6,      /* the connection's or named link is down; not for 01 on the link being added */
    FORDLINNET_STATE_FORBIDS = 7,  /* the state forbids: a send of any kind after D, C or A sent or C heard; place after A sent or D or C
                                      heard; read after C or A sent; shutdown after D, C or A sent; close after C or A sent; abort after A
                                      sent; free outside PeerAbortWait */
    FORDLINNET_CURSOR_RULE = 8,    /* a cursor rule of hear is broken; messages with A or F are exempt */
    FORDLINNET_NOT_FREE = 9,       /* a placed byte is outside the data or not free */
    FORDLINNET_ALREADY_OPEN = 10,  /* open: slot already open */
    FORDLINNET_TOKEN_HELD = 11,    /* open: own token held by another open slot */
    FORDLINNET_BAD_OPENING = 12,   /* open: a zero token, N' or the index out of range, or an element whose last byte would pass the top of
                                      64 bits on any link */
    FORDLINNET_NO_LINK = 13,       /* link number outside 1 to 4 */
    FORDLINNET_CARRIED_LINK = 14,  /* a carried link number acted on is outside 1 to 4 */
    FORDLINNET_BARRED = 15,        /* a fifth queued message, or a link send barred or replying unasked */
    FORDLINNET_NOT_NEXT = 16,      /* hear: the sequence number is not the last heard plus one; messages with A or F, and any after A was
                                      sent, are exempt */
    FORDLINNET_NO_SAMPLE = 17,     /* sample: above 60,000 milliseconds */
    FORDLINNET_NO_SIZE = 18,       /* pool: not 1, 2, 4, 8, 16, 32 or 64 units */
    FORDLINNET_NO_BLOCK = 19,      /* pool: no block of that size is wholly free and starts at a multiple of it */
    FORDLINNET_NOT_GIVEN_OUT = 20  /* pool: not given out in that place and size */
};

/* The refusals of set-up, which has numbers of its own. */
enum {
    FORDLINNET_SETUP_NO_CODE = 1,   /* our element size has no code */
    FORDLINNET_SETUP_NO_MESSAGE = 2, /* the bytes are no message of A.2 */
    FORDLINNET_SETUP_NOT_DUE = 3    /* a message not due, Decline aside */
};

/* The states of a connection (RFC 7609, Figure 22). */
enum {
    FORDLINNET_ACTIVE = 0,
    FORDLINNET_PEER_CLOSE_WAIT_1 = 1,
    FORDLINNET_PEER_CLOSE_WAIT_2 = 2,
    FORDLINNET_APP_CLOSE_WAIT_1 = 3,
    FORDLINNET_APP_CLOSE_WAIT_2 = 4,
    FORDLINNET_PEER_ABORT_WAIT = 5,
    FORDLINNET_CLOSED = 6
};

/* The health of a link; 0 in an answer that names none. */
enum {
    FORDLINNET_UNHEARD = 1, /* no sample */
    FORDLINNET_STEADY = 2,  /* mean */
    FORDLINNET_LATE = 3     /* mean, worst */
};

/* The kinds of link messages, each its byte 0; 0 where none is named. Their values stand in the order of RFC 7609, A.3, R first:
 * see struct fordlinnet_fields. */
enum {
    FORDLINNET_CONFIRM_LINK = 1,              /* R, mac, gid1, gid2, qp, link, user, max */
    FORDLINNET_ADD_LINK = 2,                  /* R, Z, reason, mac, gid1, gid2, qp, link, mtu, psn */
    FORDLINNET_ADD_LINK_CONTINUATION = 3,     /* R, link, num, ref1, key1, addr1, ref2, key2, addr2 */
    FORDLINNET_DELETE_LINK = 4,               /* R, A, O, link, reason */
    FORDLINNET_CONFIRM_RKEY = 6,              /* R, Z, C, num, key, addr, link1, key1, addr1, link2, key2, addr2 */
    FORDLINNET_TEST_LINK = 7,                 /* R, user1, user2 */
    FORDLINNET_CONFIRM_RKEY_CONTINUATION = 8, /* R, Z, num, link1, key1, addr1, link2, key2, addr2, link3, key3, addr3 */
    FORDLINNET_DELETE_RKEY = 9                /* R, Z, count, mask, key1 to key8 */
};

/* Where each value stands in fordlinnet_fields.values, by kind. R (0 a request, 1 a reply) is always the first. A MAC is 48 bits, a GID's
 * 16 bytes are two values, the high half first, and so is the user data of TEST LINK. */
enum { FORDLINNET_R = 0 };
enum {
    FORDLINNET_CONFIRM_LINK_MAC = 1,
    FORDLINNET_CONFIRM_LINK_GID1 = 2,
    FORDLINNET_CONFIRM_LINK_GID2 = 3,
    FORDLINNET_CONFIRM_LINK_QP = 4,
    FORDLINNET_CONFIRM_LINK_LINK = 5,
    FORDLINNET_CONFIRM_LINK_USER = 6,
    FORDLINNET_CONFIRM_LINK_MAX = 7
};
enum {
    FORDLINNET_ADD_LINK_Z = 1, /* rejected */
    FORDLINNET_ADD_LINK_REASON = 2,
    FORDLINNET_ADD_LINK_MAC = 3,
    FORDLINNET_ADD_LINK_GID1 = 4,
    FORDLINNET_ADD_LINK_GID2 = 5,
    FORDLINNET_ADD_LINK_QP = 6,
    FORDLINNET_ADD_LINK_LINK = 7,
    FORDLINNET_ADD_LINK_MTU = 8,
    FORDLINNET_ADD_LINK_PSN = 9
};
enum {
    FORDLINNET_ADD_LINK_CONTINUATION_LINK = 1,
    FORDLINNET_ADD_LINK_CONTINUATION_NUM = 2,
    FORDLINNET_ADD_LINK_CONTINUATION_REF1 = 3,
    FORDLINNET_ADD_LINK_CONTINUATION_KEY1 = 4,
    FORDLINNET_ADD_LINK_CONTINUATION_ADDR1 = 5,
    FORDLINNET_ADD_LINK_CONTINUATION_REF2 = 6,
    FORDLINNET_ADD_LINK_CONTINUATION_KEY2 = 7,
    FORDLINNET_ADD_LINK_CONTINUATION_ADDR2 = 8
};
enum {
    FORDLINNET_DELETE_LINK_A = 1, /* all links */
    FORDLINNET_DELETE_LINK_O = 2, /* in order */
    FORDLINNET_DELETE_LINK_LINK = 3,
    FORDLINNET_DELETE_LINK_REASON = 4
};
enum {
    FORDLINNET_CONFIRM_RKEY_Z = 1, /* negative */
    FORDLINNET_CONFIRM_RKEY_C = 2, /* to be tried again */
    FORDLINNET_CONFIRM_RKEY_NUM = 3,
    FORDLINNET_CONFIRM_RKEY_KEY = 4,
    FORDLINNET_CONFIRM_RKEY_ADDR = 5,
    FORDLINNET_CONFIRM_RKEY_LINK1 = 6,
    FORDLINNET_CONFIRM_RKEY_KEY1 = 7,
    FORDLINNET_CONFIRM_RKEY_ADDR1 = 8,
    FORDLINNET_CONFIRM_RKEY_LINK2 = 9,
    FORDLINNET_CONFIRM_RKEY_KEY2 = 10,
    FORDLINNET_CONFIRM_RKEY_ADDR2 = 11
};
enum { FORDLINNET_TEST_LINK_USER1 = 1, FORDLINNET_TEST_LINK_USER2 = 2 };
enum {
    FORDLINNET_CONFIRM_RKEY_CONTINUATION_Z = 1, /* negative */
    FORDLINNET_CONFIRM_RKEY_CONTINUATION_NUM = 2,
    FORDLINNET_CONFIRM_RKEY_CONTINUATION_LINK1 = 3,
    FORDLINNET_CONFIRM_RKEY_CONTINUATION_KEY1 = 4,
    FORDLINNET_CONFIRM_RKEY_CONTINUATION_ADDR1 = 5,
    FORDLINNET_CONFIRM_RKEY_CONTINUATION_LINK2 = 6,
    FORDLINNET_CONFIRM_RKEY_CONTINUATION_KEY2 = 7,
    FORDLINNET_CONFIRM_RKEY_CONTINUATION_ADDR2 = 8,
    FORDLINNET_CONFIRM_RKEY_CONTINUATION_LINK3 = 9,
    FORDLINNET_CONFIRM_RKEY_CONTINUATION_KEY3 = 10,
    FORDLINNET_CONFIRM_RKEY_CONTINUATION_ADDR3 = 11
};
enum {
    FORDLINNET_DELETE_RKEY_Z = 1, /* negative */
    FORDLINNET_DELETE_RKEY_COUNT = 2,
    FORDLINNET_DELETE_RKEY_MASK = 3,
    FORDLINNET_DELETE_RKEY_KEY1 = 4 /* key k stands k - 1 further on, up to key 8 */
};

/* The stages of an exchange (fordlinnet_exchange.stage), by the message that is due next; v is the link that it is run over, w the link
 * that it names. A delete runs at the server alone, an exchange of keys at the end that began it. */
enum {
    FORDLINNET_NO_EXCHANGE = 0,
    FORDLINNET_ADD_LINK_REPLY_DUE = 1,              /* the client's, over v */
    FORDLINNET_ADD_LINK_NEXT_DUE = 2,               /* the server's continuation over v, or its CONFIRM LINK over w */
    FORDLINNET_ADD_LINK_CONTINUATION_REPLY_DUE = 3, /* the client's, over v */
    FORDLINNET_CONFIRM_LINK_REPLY_DUE = 4,          /* the client's, over w, which then is active */
    FORDLINNET_DELETE_LINK_REPLY_DUE = 5,           /* the peer's, over v; w then goes down */
    FORDLINNET_CONFIRM_RKEY_REPLY_DUE = 6,          /* the peer's, over v; all keys are told */
    FORDLINNET_CONFIRM_RKEY_REPLY_DUE_MORE = 7,     /* the same, and a continuation follows */
    FORDLINNET_CONFIRM_RKEY_NEXT_DUE = 8,           /* our continuation, over v */
    FORDLINNET_CONFIRM_RKEY_NEXT_REPLY_DUE = 9,     /* the peer's reply to it, over v; all keys are told */
    FORDLINNET_CONFIRM_RKEY_NEXT_REPLY_DUE_MORE = 10, /* the same, and a continuation follows */
    FORDLINNET_DELETE_RKEY_REPLY_DUE = 11           /* the peer's, over v */
};

/* The fate of a link message; 0 where none is named. */
enum { FORDLINNET_TAKEN = 1, FORDLINNET_QUEUED = 2, FORDLINNET_DENIED = 3, FORDLINNET_DROPPED = 4 };

/* The message due in set-up. */
enum {
    FORDLINNET_DUE_NOTHING = 0, /* the client's start; the bytes are not looked at */
    FORDLINNET_DUE_PROPOSAL = 1,
    FORDLINNET_DUE_ACCEPT = 2,
    FORDLINNET_DUE_CONFIRM = 3
};

/* The buffer of a piece. */
enum { FORDLINNET_HEAD = 0, FORDLINNET_BODY = 1 };

/* THE STRUCTS, as the proved side has them */

/* A cursor: an offset in an element, 4 to N-1, and a wrap number. */
struct fordlinnet_cursor {
    uint32_t offset;
    uint16_t wrap;
};

/* One side's close marks: D done writing, C closed. */
struct fordlinnet_side {
    bool done;
    bool closed;
};

struct fordlinnet_marks {
    struct fordlinnet_side sent;
    struct fordlinnet_side heard;
    bool first; /* ours came first */
    bool abort; /* A sent */
};

/* Whether the slot is open, both alert tokens, and the connection's link, 1 to 4. */
struct fordlinnet_identity {
    bool opened;
    uint32_t own;
    uint32_t peer;
    uint8_t link;
};

/* The peer's memory on one link: its key, and the address of its first byte. */
struct fordlinnet_rtoken {
    uint32_t key;
    uint64_t base;
};

/* The peer's element: N' bytes (8 to 65,540), number `index` (1 to 255) of its memory, and that memory on each link. */
struct fordlinnet_remote {
    uint32_t size;
    uint32_t index;
    struct fordlinnet_rtoken link1;
    struct fordlinnet_rtoken link2;
    struct fordlinnet_rtoken link3;
    struct fordlinnet_rtoken link4;
};

/* An urgent place, one byte beyond the urgent bytes; all zeros where none stands. */
struct fordlinnet_urgent {
    bool standing;
    struct fordlinnet_cursor place;
};

/* In our element: P the peer's producer as last heard, C our consumer, T the consumer last told; the last sequence number heard; B and R of
 * the last message heard; the urgent place. */
struct fordlinnet_inbound {
    struct fordlinnet_cursor producer;
    struct fordlinnet_cursor consumer;
    struct fordlinnet_cursor told;
    uint16_t last;
    bool blocked;
    bool request;
    struct fordlinnet_urgent urgent;
};

/* In the peer's element: Q our producer, R the peer's consumer as last heard; the next sequence number; our present B; the urgent place. */
struct fordlinnet_outbound {
    struct fordlinnet_cursor producer;
    struct fordlinnet_cursor consumer;
    uint16_t next;
    bool blocked;
    struct fordlinnet_urgent urgent;
};

/* A slot of the table. All zeros is a closed one. Read it freely; calls test every open record that they are lent. */
struct fordlinnet_record {
    struct fordlinnet_identity id;
    struct fordlinnet_remote remote;
    struct fordlinnet_inbound inbound;
    struct fordlinnet_outbound outbound;
    struct fordlinnet_marks marks;
};

/* A link's gauge: mean and worst answer time in milliseconds, how many samples (8: eight or more), whether the latest was late. */
struct fordlinnet_gauge {
    double mean;
    double worst;
    uint8_t count;
    bool late;
};

/* The exchange of link messages that runs: its stage (FORDLINNET_NO_EXCHANGE where none runs), the link that it is run over, and the link
 * that it names. */
struct fordlinnet_exchange {
    uint8_t stage;
    uint8_t v;
    uint8_t w;
};

/* A link message that waits for the exchange's end, as it was heard, and the link that it came over. */
struct fordlinnet_waiting {
    uint8_t link;
    uint8_t bytes[FORDLINNET_MESSAGE_LENGTH];
};

/* Those that wait, oldest first. */
struct fordlinnet_queue {
    uint8_t count;
    struct fordlinnet_waiting places[4];
};

/* The four links, active or down, and their gauges; link l is entry l - 1. Our role, exchange and queue. */
struct fordlinnet_links {
    bool active[4];
    struct fordlinnet_gauge gauges[4];
    bool server; /* false: we are the client */
    struct fordlinnet_exchange exchange;
    struct fordlinnet_queue queue;
};

/* What open is given. */
struct fordlinnet_opening {
    uint32_t own;
    uint32_t peer;
    uint8_t link;
    struct fordlinnet_remote remote;
};

/* One of the calls by its number; what the number does not name is not looked at. */
struct fordlinnet_command {
    uint32_t number;
    uint32_t slot;
    uint32_t offset;
    uint32_t ms;
    uint8_t link;
    struct fordlinnet_opening opening;
};

/* Bytes for the card to write: the peer's memory key and an address, a start in the bytes sent, and a length. */
struct fordlinnet_placing {
    uint32_t key;
    uint64_t address;
    uint32_t start;
    uint32_t len;
};

/* The answer of a group's call; what `said` does not name is zero. */
struct fordlinnet_answer {
    uint32_t said;
    uint32_t refusal;
    uint32_t n; /* bytes taken or read, here and in the small answers; `count` is of messages, or of a message's bytes */
    uint32_t state;
    uint64_t moved;
    uint32_t health;
    uint32_t placings; /* how many of first and second */
    struct fordlinnet_placing first;
    struct fordlinnet_placing second;
    double mean;
    double worst;
    bool made;
    uint8_t message[FORDLINNET_MESSAGE_LENGTH]; /* zeros where none is made */
    struct fordlinnet_links links;
};

/* A link message's kind and values, in the order above; the rest is zero. Of a value only as many bits are written as its field has. */
struct fordlinnet_fields {
    uint8_t kind;
    uint64_t values[FORDLINNET_VALUES];
};

/* A message taken up from the queue, where `some`: the link that it came over, its fate and its fields. */
struct fordlinnet_taken_up {
    bool some;
    uint8_t link;
    uint32_t fate;
    struct fordlinnet_fields fields;
};

/* One of the calls on the links by its number; what the number does not name is not looked at. */
struct fordlinnet_link_command {
    uint32_t number;
    uint8_t link;
    bool up;
    struct fordlinnet_fields fields;
};

/* The answer of link change, link message and link send; what `said` does not name is zero. Link message names its fate and its fields, and
 * the reply where one is made; link message and link send name a message taken up when an exchange ends; all three how many messages with F
 * stand at the front of the buffer, 44 bytes each, in slot order (link send: always 0). */
struct fordlinnet_link_answer {
    uint32_t said; /* FORDLINNET_UNKNOWN, _REFUSED, _LINK_HEARD, _LINK_SENT or _LINK_CHANGED */
    uint32_t refusal;
    uint32_t fate;
    struct fordlinnet_fields fields;
    struct fordlinnet_taken_up up;
    uint32_t count;
    bool made;
    uint8_t message[FORDLINNET_MESSAGE_LENGTH]; /* zeros where none is made */
    struct fordlinnet_links links;
};

/* A piece for the card to write: `len` bytes from `start` of the head or of the body, to a key and an address. */
struct fordlinnet_piece {
    uint32_t buffer;
    uint32_t start;
    uint32_t len;
    uint32_t key;
    uint64_t address;
};

/* What a console shows of a link: the health, and how many numbers stand behind it, the mean, then the worst. */
struct fordlinnet_view {
    uint32_t health;
    uint32_t shown;
    double mean;
    double worst;
};

/* The books of a pool of 64 units: entry u is the size of the block given out that starts at unit u, 0 where none starts. */
struct fordlinnet_books {
    uint8_t sizes[64];
};

struct fordlinnet_pool_answer {
    uint32_t said; /* FORDLINNET_REFUSED, FORDLINNET_BLOCK or FORDLINNET_RETURNED */
    uint32_t refusal;
    uint32_t start;
    struct fordlinnet_books books; /* as they are now */
};

/* Our settings for set-up: what our messages carry, and what our open will be given. */
struct fordlinnet_settings {
    uint32_t size;         /* N, our element size, eye catcher included. 16,384, 32,768, 65,536, 131,072, 262,144 and 524,288 have a code;
                              any other is refused with FORDLINNET_SETUP_NO_CODE. A group's elements end at 65,540 bytes, so that the first
                              three are of use */
    uint8_t peer[8];       /* our peer ID */
    uint8_t gid[16];       /* our GID */
    uint8_t mac[6];        /* our MAC */
    uint8_t mask[4];       /* the subnet mask of our Proposal; not looked at where count is above 0, nor is masklen */
    uint8_t masklen;       /* its significant bits */
    uint8_t count;         /* how many prefixes our Proposal carries; above 8 counts as 8 */
    uint8_t prefixes[136]; /* eight times a prefix of 16 bytes and its length */
    bool first;            /* server: whether the Accept says first contact */
    uint32_t qp;           /* our queue pair's number, 24 bits */
    uint8_t mtu;           /* its MTU's code, 4 bits */
    uint32_t psn;          /* its initial packet sequence number, 24 bits */
    uint32_t key;          /* the key of our memory on `link`, which the peer is told */
    uint64_t base;         /* the address of its first byte there */
    uint8_t slot;          /* our slot, which is also our element's index for the peer */
    uint32_t own;          /* our alert token, by which hear will find the connection */
    uint8_t link;          /* the connection's link, 1 to 4 */
    uint32_t key1;         /* the peer's memory on links 1 to 4; of the one that is `link`, what is heard counts */
    uint64_t base1;
    uint32_t key2;
    uint64_t base2;
    uint32_t key3;
    uint64_t base3;
    uint32_t key4;
    uint64_t base4;
};

/* The arguments of an open. */
struct fordlinnet_arguments {
    uint8_t slot;
    uint32_t own;
    uint32_t token;
    uint8_t link;
    uint32_t size;
    uint8_t index;
    uint32_t key1;
    uint64_t base1;
    uint32_t key2;
    uint64_t base2;
    uint32_t key3;
    uint64_t base3;
    uint32_t key4;
    uint64_t base4;
};

/* The answer of set-up. Where said == FORDLINNET_ANSWERED: the message to send is the first `count` bytes of `message`, none where that is
 * 0; `arguments` are an open's where `opens`; `diagnosis` is a decline's, ours or the peer's, where `declined`. */
struct fordlinnet_setup_answer {
    uint32_t said; /* FORDLINNET_UNKNOWN, FORDLINNET_REFUSED or FORDLINNET_ANSWERED */
    uint32_t refusal;
    bool opens;
    bool declined;
    uint32_t diagnosis;
    size_t count;
    struct fordlinnet_arguments arguments;
    uint8_t message[188];
};

/* The links' states, without what link messages need. */
struct fordlinnet_link_states {
    bool active[4];
};

/* What a read on the table itself answers. */
struct fordlinnet_read_answer {
    uint8_t refusal; /* the refusal's number, or 0 */
    bool torn;       /* the eye catcher was damaged: an abort message is made */
    bool made;       /* a message was made */
    uint32_t n;      /* so many bytes were read */
};

/* What a send or an urgent send on the table itself answers. */
struct fordlinnet_send_answer {
    uint8_t refusal;  /* the refusal's number, or 0 */
    bool made;        /* a message was made */
    uint8_t placings; /* how many of the two are named; the others are zeros */
    uint32_t n;       /* so many of the bytes were taken */
    struct fordlinnet_placing first;
    struct fordlinnet_placing second;
};

/* What a gather answers. The pieces stand in their order, at most three; all zeros, len == 0, where there is none. */
struct fordlinnet_gather_answer {
    uint8_t refusal; /* the refusal's number, or 0 */
    bool made;       /* a message was made */
    uint32_t n;      /* so many of the joined bytes were taken */
    struct fordlinnet_piece pieces[3];
    struct fordlinnet_placing last; /* an empty placing where Q is after the call; all zeros where it is refused */
};

/* What a hear on the table itself answers. */
struct fordlinnet_hear_answer {
    uint8_t refusal; /* the refusal's number, or 0 */
    bool made;       /* a message was made */
    uint8_t state;   /* the connection's state, FORDLINNET_ACTIVE and so on */
    uint64_t moved;  /* how far the peer's producer moved */
};

/* What shutdown, close and abort answer. */
struct fordlinnet_finish_answer {
    uint8_t refusal; /* the refusal's number, or 0 */
    bool made;       /* a message was made: always, where the call is not refused */
    bool reset;      /* close: bytes were unread, and the message is an abort message */
};

/* THE PROVED FUNCTIONS */

/* Makes the call that the command names. Every call of a connection and of management but gather, link change, link message and link
 * send; below each has a function of its own. */
struct fordlinnet_answer fordlinnet_make(uint32_t s, uint32_t n, uint8_t *memory, size_t memory_length, struct fordlinnet_record *table,
                                         size_t table_length, struct fordlinnet_links links, struct fordlinnet_command command,
                                         const uint8_t *bytes, size_t bytes_length, uint8_t *out, size_t out_length);

/* Reads, on the table itself and with a small answer, in which a field that is not named is zero: of the links it sees only their states.
 * A message that is made is written to `message`, all of its 44 bytes; else they stay as they are. */
struct fordlinnet_read_answer fordlinnet_make_read(uint32_t s, uint32_t n, const uint8_t *memory, size_t memory_length,
                                                   struct fordlinnet_record *table, size_t table_length,
                                                   struct fordlinnet_link_states links, uint32_t slot, uint8_t *out, size_t out_length,
                                                   uint8_t message[FORDLINNET_MESSAGE_LENGTH]);

/* Places, likewise: the refusal's number, or 0 where the bytes are stored. */
uint8_t fordlinnet_make_place(uint32_t s, uint32_t n, uint8_t *memory, size_t memory_length, const struct fordlinnet_record *table,
                              size_t table_length, struct fordlinnet_link_states links, uint32_t slot, uint32_t offset,
                              const uint8_t *bytes, size_t bytes_length);

/* Sends, likewise; and sends urgent bytes. */
struct fordlinnet_send_answer fordlinnet_make_send(uint32_t s, uint32_t n, const uint8_t *memory, size_t memory_length,
                                                   struct fordlinnet_record *table, size_t table_length,
                                                   struct fordlinnet_link_states links, uint32_t slot, const uint8_t *bytes,
                                                   size_t bytes_length, uint8_t message[FORDLINNET_MESSAGE_LENGTH]);
struct fordlinnet_send_answer fordlinnet_make_urgent_send(uint32_t s, uint32_t n, const uint8_t *memory, size_t memory_length,
                                                          struct fordlinnet_record *table, size_t table_length,
                                                          struct fordlinnet_link_states links, uint32_t slot, const uint8_t *bytes,
                                                          size_t bytes_length, uint8_t message[FORDLINNET_MESSAGE_LENGTH]);

/* Hears, likewise. */
struct fordlinnet_hear_answer fordlinnet_make_hear(uint32_t s, uint32_t n, const uint8_t *memory, size_t memory_length,
                                                   struct fordlinnet_record *table, size_t table_length,
                                                   struct fordlinnet_link_states links, const uint8_t *bytes, size_t bytes_length,
                                                   uint8_t message[FORDLINNET_MESSAGE_LENGTH]);

/* Shutdown, close and abort, likewise: the message stands in the 44 bytes of `message`, which a refused call leaves as they were. */
struct fordlinnet_finish_answer fordlinnet_make_shutdown(uint32_t s, uint32_t n, const uint8_t *memory, size_t memory_length,
                                                         struct fordlinnet_record *table, size_t table_length,
                                                         struct fordlinnet_link_states links, uint32_t slot, uint8_t *message);
struct fordlinnet_finish_answer fordlinnet_make_close(uint32_t s, uint32_t n, const uint8_t *memory, size_t memory_length,
                                                      struct fordlinnet_record *table, size_t table_length,
                                                      struct fordlinnet_link_states links, uint32_t slot, uint8_t *message);
struct fordlinnet_finish_answer fordlinnet_make_abort(uint32_t s, uint32_t n, const uint8_t *memory, size_t memory_length,
                                                      struct fordlinnet_record *table, size_t table_length,
                                                      struct fordlinnet_link_states links, uint32_t slot, uint8_t *message);

/* Sends a head and a body as if joined, head first, likewise. */
struct fordlinnet_gather_answer fordlinnet_make_gather(uint32_t s, uint32_t n, const uint8_t *memory, size_t memory_length,
                                                       struct fordlinnet_record *table, size_t table_length,
                                                       struct fordlinnet_link_states links, uint32_t slot, const uint8_t *head,
                                                       size_t head_length, const uint8_t *body, size_t body_length,
                                                       uint8_t message[FORDLINNET_MESSAGE_LENGTH]);

/* Makes the call on the links that the command names. Of the table it changes at most the links of records; of the memory only the length
 * is looked at. The messages with F go to the front of out; its other bytes stay. */
struct fordlinnet_link_answer fordlinnet_make_link(uint32_t s, uint32_t n, const uint8_t *memory, size_t memory_length,
                                                   struct fordlinnet_record *table, size_t table_length, struct fordlinnet_links links,
                                                   struct fordlinnet_link_command command, const uint8_t *bytes, size_t bytes_length,
                                                   uint8_t *out, size_t out_length);

/* What a console shows of a link; of a number outside 1 to 4 as of a link with no sample. */
struct fordlinnet_view fordlinnet_view_link(struct fordlinnet_links links, uint8_t link);

/* A fresh group's: a closed record (all zeros), and links that are down with cleared gauges, no exchange and none that
 * waits, in either role. Its memory is zeros. */
struct fordlinnet_record fordlinnet_closed_record(void);
struct fordlinnet_links fordlinnet_links_down(bool server);

/* The pool: books with nothing given out (fordlinnet_fresh_books, by its better name); taking a block of 1, 2, 4, 8, 16, 32 or 64 units,
 * refused with 3, 18, 19; returning one, refused with 3, 20. No call gives anything back to a system: books are a value. Of these nobody is
 * told; fordlinnet_take_block and fordlinnet_return_block are the same for a program that may be traced. */
struct fordlinnet_books fordlinnet_pool_free(void);
struct fordlinnet_pool_answer fordlinnet_pool_take(struct fordlinnet_books books, uint32_t units);
struct fordlinnet_pool_answer fordlinnet_pool_return(struct fordlinnet_books books, uint32_t start, uint32_t units);

/* Setting up a connection: keeps nothing. */
struct fordlinnet_setup_answer fordlinnet_make_setup(struct fordlinnet_settings settings, uint32_t due, const uint8_t *bytes,
                                                     size_t bytes_length);

/* For a binding's test: each struct filled so that field i, counted from 1 through structs and arrays as they are declared (an array of
 * bytes is one field), has i in its lowest and its highest byte (each byte of an array), is i as a double, or as a bool is whether `one`
 * is i. */
struct fordlinnet_record fordlinnet_shape_record(uint32_t one);
struct fordlinnet_links fordlinnet_shape_links(uint32_t one);
struct fordlinnet_command fordlinnet_shape_command(void);
struct fordlinnet_link_command fordlinnet_shape_link_command(uint32_t one);
struct fordlinnet_answer fordlinnet_shape_answer(uint32_t one);
struct fordlinnet_link_answer fordlinnet_shape_link_answer(uint32_t one);
struct fordlinnet_link_states fordlinnet_shape_link_states(uint32_t one);
struct fordlinnet_read_answer fordlinnet_shape_read_answer(uint32_t one);
struct fordlinnet_send_answer fordlinnet_shape_send_answer(uint32_t one);
struct fordlinnet_hear_answer fordlinnet_shape_hear_answer(uint32_t one);
struct fordlinnet_finish_answer fordlinnet_shape_finish_answer(uint32_t one);
struct fordlinnet_gather_answer fordlinnet_shape_gather_answer(uint32_t one);
struct fordlinnet_view fordlinnet_shape_view(void);
struct fordlinnet_pool_answer fordlinnet_shape_pool_answer(void);
struct fordlinnet_settings fordlinnet_shape_settings(uint32_t one);
struct fordlinnet_setup_answer fordlinnet_shape_setup_answer(uint32_t one);

/* The structs have on this compiler the sizes that the archive has; bindings/c/shapes.c holds every field to it. */
#ifdef __cplusplus
#define FORDLINNET_HAS(s, size) static_assert(sizeof(struct fordlinnet_##s) == (size), "struct fordlinnet_" #s)
#else
#define FORDLINNET_HAS(s, size) _Static_assert(sizeof(struct fordlinnet_##s) == (size), "struct fordlinnet_" #s)
#endif
FORDLINNET_HAS(record, 168);
FORDLINNET_HAS(links, 296);
FORDLINNET_HAS(command, 112);
FORDLINNET_HAS(answer, 440);
FORDLINNET_HAS(link_command, 112);
FORDLINNET_HAS(link_answer, 584);
FORDLINNET_HAS(gather_answer, 104);
FORDLINNET_HAS(piece, 24);
FORDLINNET_HAS(view, 24);
FORDLINNET_HAS(pool_answer, 76);
FORDLINNET_HAS(settings, 280);
FORDLINNET_HAS(setup_answer, 304);

/* EACH CALL UNDER ITS OWN NAME */

#if defined(__GNUC__)
#define FORDLINNET_COLD __attribute__((noinline, cold, unused))
#else
#define FORDLINNET_COLD
#endif

struct fordlinnet_group;

/* A call as a tracer sees it: the command, of one kind or the other, and what it is lent; after the call, its answer. A gather has the
 * number FORDLINNET_GATHER, its head in `bytes`, and says FORDLINNET_GATHERED. */
enum { FORDLINNET_GATHER = 15 };
struct fordlinnet_seen {
    const struct fordlinnet_command *command;           /* or null */
    const struct fordlinnet_link_command *link_command; /* or null */
    const uint8_t *bytes;
    size_t length;
    const uint8_t *body;
    size_t body_length;
    const uint8_t *out;
    size_t room;
    const struct fordlinnet_answer *answer;           /* null before the call, and of a call on links */
    const struct fordlinnet_link_answer *link_answer; /* null before the call, and of any other */
    const struct fordlinnet_gather_answer *gathered;  /* a gather's, after the call */
};

/* Who is told of each call of a group, before it and after it. fordlinnet_trace.h has one that writes the calls down for `replay`. */
struct fordlinnet_tracer {
    void (*before)(struct fordlinnet_tracer *to, const struct fordlinnet_group *g, const struct fordlinnet_seen *call);
    void (*after)(struct fordlinnet_tracer *to, const struct fordlinnet_group *g, const struct fordlinnet_seen *call);
};

/* A group: what every call is lent. The caller fills it, and begins with zeros; `links` is brought up to date by each call. */
struct fordlinnet_group {
    uint32_t s;                      /* elements and slots, 1 to 255 */
    uint32_t n;                      /* bytes of an element, 8 to 65,540 */
    uint8_t *memory;                 /* s x n bytes: element k is its slot's, from byte (k - 1) x n */
    size_t memory_length;
    struct fordlinnet_record *table; /* s records: slot k is entry k - 1 */
    size_t table_length;
    struct fordlinnet_links links;
    struct fordlinnet_tracer *tracer; /* null: nobody is told, which costs a test a call */
};

/* A fresh group, as client or as server: every slot closed, every link down, no exchange, memory all zeros. It asks for the archive of this
 * header's ABI: a program with another does not link, and one that finds another's shared library in spite of its name is told so by
 * false, with nothing done. */
static inline bool fordlinnet_fresh(struct fordlinnet_group *g, bool server) {
    size_t i;
    if (fordlinnet_abi_2 != FORDLINNET_ABI) return false;
    for (i = 0; i < g->table_length; i++) g->table[i] = fordlinnet_closed_record();
    for (i = 0; i < g->memory_length; i++) g->memory[i] = 0;
    g->links = fordlinnet_links_down(server);
    return true;
}

static inline struct fordlinnet_command fordlinnet_command_of(uint32_t number, uint32_t slot) {
    struct fordlinnet_command c;
    unsigned char *p = (unsigned char *)&c;
    size_t i;
    for (i = 0; i < sizeof c; i++) p[i] = 0;
    c.number = number;
    c.slot = slot;
    return c;
}

static inline struct fordlinnet_answer fordlinnet_call(struct fordlinnet_group *g, struct fordlinnet_command c, const uint8_t *bytes,
                                                       size_t length, uint8_t *out, size_t room) {
    uint8_t none[1] = {0}, nowhere[1] = {0};
    struct fordlinnet_seen seen = {&c, 0, bytes, length, 0, 0, out, room, 0, 0, 0};
    struct fordlinnet_answer a;
    if (g->tracer) g->tracer->before(g->tracer, g, &seen);
    a = fordlinnet_make(g->s, g->n, g->memory, g->memory_length, g->table, g->table_length, g->links, c, length ? bytes : none, length,
                        room ? out : nowhere, room);
    g->links = a.links;
    seen.answer = &a;
    if (g->tracer) g->tracer->after(g->tracer, g, &seen);
    return a;
}

/* Management */

/* Opens a closed slot: zeroes its element, writes the eye catcher. A slot closed by C sent and C heard, or by A heard, has nothing under
 * way to it; one closed by fordlinnet_free may be opened again only when no write of the old connection can arrive: the queue pair is down,
 * or the key was revoked (see the head). Refused with 1, 2, 10, 12, 13, 6, 11, tested in this order. */
static inline struct fordlinnet_answer fordlinnet_open(struct fordlinnet_group *g, uint32_t slot, struct fordlinnet_opening opening) {
    struct fordlinnet_command c = fordlinnet_command_of(FORDLINNET_OPEN, slot);
    c.opening = opening;
    return fordlinnet_call(g, c, 0, 0, 0, 0);
}

/* Document 01's free: closes a slot in PeerAbortWait. No memory is given back. It does not say that nothing is under way to the element:
 * the slot may be opened again only when no write of this connection can arrive: the queue pair is down, or the key was revoked (see the
 * head). Hearing the peer's A closes the slot too, and does say so. Refused with 1, 2, 3, 7. */
static inline struct fordlinnet_answer fordlinnet_free(struct fordlinnet_group *g, uint32_t slot) {
    return fordlinnet_call(g, fordlinnet_command_of(FORDLINNET_FREE, slot), 0, 0, 0, 0);
}

/* The same, by a caller who swears that no write of this connection can arrive any more, since its queue pair is down or its key was
 * revoked. The slot may then be opened again at once. */
static inline struct fordlinnet_answer fordlinnet_free_when_no_write_can_arrive(struct fordlinnet_group *g, uint32_t slot) {
    return fordlinnet_free(g, slot);
}

/* The calls on the links. Each is lent a buffer of at least FORDLINNET_MESSAGE_LENGTH x S bytes, apart from memory and table, or is refused
 * with 1; what `count` says of it is sent over the new link as the head of this file has it: after all writes on the old link are done or
 * were put again in order, else the peer aborts the connection; before any later message. Pieces of a gather answered before the call still
 * name the old link, as placings handed out before it do. */

static inline struct fordlinnet_link_command fordlinnet_link_command_of(uint32_t number, uint8_t link) {
    struct fordlinnet_link_command c;
    size_t i;
    c.number = number;
    c.link = link;
    c.up = false;
    c.fields.kind = 0;
    for (i = 0; i < FORDLINNET_VALUES; i++) c.fields.values[i] = 0;
    return c;
}

static inline struct fordlinnet_link_answer fordlinnet_link_call(struct fordlinnet_group *g, struct fordlinnet_link_command c,
                                                                 const uint8_t *bytes, size_t length, uint8_t *out, size_t room) {
    uint8_t none[1] = {0}, nowhere[1] = {0};
    struct fordlinnet_seen seen = {0, &c, bytes, length, 0, 0, out, room, 0, 0, 0};
    struct fordlinnet_link_answer a;
    if (g->tracer) g->tracer->before(g->tracer, g, &seen);
    a = fordlinnet_make_link(g->s, g->n, g->memory, g->memory_length, g->table, g->table_length, g->links, c, length ? bytes : none, length,
                             room ? out : nowhere, room);
    g->links = a.links;
    seen.link_answer = &a;
    if (g->tracer) g->tracer->after(g->tracer, g, &seen);
    return a;
}

/* Sets a link, active or down; one that goes down loses its gauge, ends an exchange that it is part of, and its connections move. Refused
 * with 1, 13. */
static inline struct fordlinnet_link_answer fordlinnet_link_change(struct fordlinnet_group *g, uint8_t link, bool up, uint8_t *out,
                                                                   size_t room) {
    struct fordlinnet_link_command c = fordlinnet_link_command_of(FORDLINNET_LINK_CHANGE, link);
    c.up = up;
    return fordlinnet_link_call(g, c, 0, 0, out, room);
}

/* Takes a link message's bytes: its fate by the exchange that runs, the reply where one is due at once, what it does to the links, and the
 * connections that move. Refused with 1, 13, 6, 4, 14, 15. */
static inline struct fordlinnet_link_answer fordlinnet_link_message(struct fordlinnet_group *g, uint8_t link, const uint8_t *bytes,
                                                                    size_t length, uint8_t *out, size_t room) {
    return fordlinnet_link_call(g, fordlinnet_link_command_of(FORDLINNET_LINK_MESSAGE, link), bytes, length, out, room);
}

/* Makes a link message's bytes, of its kind and values. Refused with 1, 13, 6, 14, 15. */
static inline struct fordlinnet_link_answer fordlinnet_link_send(struct fordlinnet_group *g, uint8_t link, struct fordlinnet_fields fields,
                                                                 uint8_t *out, size_t room) {
    struct fordlinnet_link_command c = fordlinnet_link_command_of(FORDLINNET_LINK_SEND, link);
    c.fields = fields;
    return fordlinnet_link_call(g, c, 0, 0, out, room);
}

/* Hands a link's gauge an answer time of TEST LINK in milliseconds. Refused with 13, 6, 17. */
static inline struct fordlinnet_answer fordlinnet_sample(struct fordlinnet_group *g, uint8_t link, uint32_t ms) {
    struct fordlinnet_command c = fordlinnet_command_of(FORDLINNET_SAMPLE, 0);
    c.link = link;
    c.ms = ms;
    return fordlinnet_call(g, c, 0, 0, 0, 0);
}

/* A connection's. Each tests 1, then 2 (hear: 4, 5), 3, 6, 7, 16, 8, 9. */

/* Takes as many bytes as the peer has room for, and none while an urgent place of our own sends stands; the card is to write the placings
 * before the message goes out. Refused with 1, 2, 3, 6, 7. */
static inline struct fordlinnet_answer fordlinnet_send(struct fordlinnet_group *g, uint32_t slot, const uint8_t *bytes, size_t length) {
    return fordlinnet_call(g, fordlinnet_command_of(FORDLINNET_SEND, slot), bytes, length, 0, 0);
}

/* What the card does for the peer: stores bytes at an offset of the element. Refused with 1, 2, 3, 6, 7, 9. */
static inline struct fordlinnet_answer fordlinnet_place(struct fordlinnet_group *g, uint32_t slot, uint32_t offset, const uint8_t *bytes,
                                                        size_t length) {
    struct fordlinnet_command c = fordlinnet_command_of(FORDLINNET_PLACE, slot);
    c.offset = offset;
    return fordlinnet_call(g, c, bytes, length, 0, 0);
}

/* The states of a group's links. */
static inline struct fordlinnet_link_states fordlinnet_states_of(const struct fordlinnet_group *g) {
    struct fordlinnet_link_states states;
    for (int i = 0; i < 4; i++) {
        states.active[i] = g->links.active[i];
    }
    return states;
}

/* The calls below with a small answer are the faster form of a place, a send, a read and a hear. A traced group makes the plain call in
 * their place, which answers the same. */
static FORDLINNET_COLD uint8_t fordlinnet_place_traced(struct fordlinnet_group *g, uint32_t slot, uint32_t offset, const uint8_t *bytes,
                                                       size_t length) {
    return (uint8_t)fordlinnet_place(g, slot, offset, bytes, length).refusal;
}

/* A place with a small answer, and faster than fordlinnet_place: the refusal's number, or 0. */
static inline uint8_t fordlinnet_place_direct(struct fordlinnet_group *g, uint32_t slot, uint32_t offset, const uint8_t *bytes,
                                              size_t length) {
    uint8_t none[1] = {0};
    if (g->tracer) return fordlinnet_place_traced(g, slot, offset, bytes, length);
    return fordlinnet_make_place(g->s, g->n, g->memory, g->memory_length, g->table, g->table_length, fordlinnet_states_of(g), slot, offset,
                                 length ? bytes : none, length);
}

/* Copies the first unread bytes to out, as many as it has room for; the rest of out stays. Refused with 1, 2, 3, 6, 7. */
static inline struct fordlinnet_answer fordlinnet_read(struct fordlinnet_group *g, uint32_t slot, uint8_t *out, size_t room) {
    return fordlinnet_call(g, fordlinnet_command_of(FORDLINNET_READ, slot), 0, 0, out, room);
}

/* The message of a plain answer, where the small one has it. */
static inline void fordlinnet_message_to(uint8_t *message, const struct fordlinnet_answer *a) {
    int i;
    for (i = 0; a->made && i < FORDLINNET_MESSAGE_LENGTH; i++) message[i] = a->message[i];
}

/* A traced send or urgent send is made by its number, which answers the same. */
static FORDLINNET_COLD struct fordlinnet_send_answer fordlinnet_send_traced(struct fordlinnet_group *g, uint32_t number, uint32_t slot,
                                                                            const uint8_t *bytes, size_t length, uint8_t *message) {
    struct fordlinnet_answer a = fordlinnet_call(g, fordlinnet_command_of(number, slot), bytes, length, 0, 0);
    struct fordlinnet_send_answer r;
    r.refusal = (uint8_t)a.refusal;
    r.made = a.made;
    r.placings = (uint8_t)a.placings;
    r.n = a.n;
    r.first = a.first;
    r.second = a.second;
    fordlinnet_message_to(message, &a);
    return r;
}

/* A send with a small answer, and faster than fordlinnet_send: a message that is made is written to `message`, which has 44 bytes. */
static inline struct fordlinnet_send_answer fordlinnet_send_direct(struct fordlinnet_group *g, uint32_t slot, const uint8_t *bytes,
                                                                   size_t length, uint8_t *message) {
    uint8_t none[1] = {0};
    if (g->tracer) return fordlinnet_send_traced(g, FORDLINNET_SEND, slot, bytes, length, message);
    return fordlinnet_make_send(g->s, g->n, g->memory, g->memory_length, g->table, g->table_length, fordlinnet_states_of(g), slot,
                                length ? bytes : none, length, message);
}

/* A send whose end is the urgent place if all bytes are taken. Refused as a send; its message is written to `message`, which has 44
 * bytes. */
static inline struct fordlinnet_send_answer fordlinnet_urgent_send(struct fordlinnet_group *g, uint32_t slot, const uint8_t *bytes,
                                                                   size_t length, uint8_t *message) {
    uint8_t none[1] = {0};
    if (g->tracer) return fordlinnet_send_traced(g, FORDLINNET_URGENT_SEND, slot, bytes, length, message);
    return fordlinnet_make_urgent_send(g->s, g->n, g->memory, g->memory_length, g->table, g->table_length, fordlinnet_states_of(g), slot,
                                       length ? bytes : none, length, message);
}

/* A traced gather: the tracer is told its answer as any other call's. */
static FORDLINNET_COLD struct fordlinnet_gather_answer fordlinnet_gather_traced(struct fordlinnet_group *g, uint32_t slot,
                                                                                const uint8_t *head, size_t head_length,
                                                                                const uint8_t *body, size_t body_length,
                                                                                uint8_t *message) {
    uint8_t none[1] = {0};
    struct fordlinnet_command c = fordlinnet_command_of(FORDLINNET_GATHER, slot);
    struct fordlinnet_seen seen = {&c, 0, head, head_length, body, body_length, 0, 0, 0, 0, 0};
    struct fordlinnet_gather_answer r;
    struct fordlinnet_answer a;
    unsigned char *p = (unsigned char *)&a;
    size_t i;
    g->tracer->before(g->tracer, g, &seen);
    r = fordlinnet_make_gather(g->s, g->n, g->memory, g->memory_length, g->table, g->table_length, fordlinnet_states_of(g), slot,
                               head_length ? head : none, head_length, body_length ? body : none, body_length, message);
    for (i = 0; i < sizeof a; i++) p[i] = 0;
    a.said = r.refusal ? FORDLINNET_REFUSED : FORDLINNET_GATHERED;
    a.refusal = r.refusal;
    a.n = r.n;
    a.made = r.made;
    for (i = 0; a.made && i < FORDLINNET_MESSAGE_LENGTH; i++) a.message[i] = message[i];
    a.links = g->links;
    seen.answer = &a;
    seen.gathered = &r;
    g->tracer->after(g->tracer, g, &seen);
    return r;
}

/* Sends a head and a body as if joined: a message that is made is written to `message`, which has 44 bytes, and the card is to write the
 * pieces before it goes out. Refused as a send of the joined bytes. */
static inline struct fordlinnet_gather_answer fordlinnet_gather(struct fordlinnet_group *g, uint32_t slot, const uint8_t *head,
                                                                size_t head_length, const uint8_t *body, size_t body_length,
                                                                uint8_t *message) {
    uint8_t none[1] = {0};
    if (g->tracer) return fordlinnet_gather_traced(g, slot, head, head_length, body, body_length, message);
    return fordlinnet_make_gather(g->s, g->n, g->memory, g->memory_length, g->table, g->table_length, fordlinnet_states_of(g), slot,
                                  head_length ? head : none, head_length, body_length ? body : none, body_length, message);
}

static FORDLINNET_COLD struct fordlinnet_read_answer fordlinnet_read_traced(struct fordlinnet_group *g, uint32_t slot, uint8_t *out,
                                                                            size_t room, uint8_t *message) {
    struct fordlinnet_answer a = fordlinnet_read(g, slot, out, room);
    struct fordlinnet_read_answer r;
    r.refusal = (uint8_t)a.refusal;
    r.torn = a.said == FORDLINNET_TORN;
    r.made = a.made;
    r.n = a.n;
    fordlinnet_message_to(message, &a);
    return r;
}

/* A read with a small answer, and faster than fordlinnet_read: a message that is made is written to `message`, which has 44 bytes. */
static inline struct fordlinnet_read_answer fordlinnet_read_direct(struct fordlinnet_group *g, uint32_t slot, uint8_t *out, size_t room,
                                                                 uint8_t *message) {
    uint8_t none[1] = {0};
    if (g->tracer) return fordlinnet_read_traced(g, slot, out, room, message);
    return fordlinnet_make_read(g->s, g->n, g->memory, g->memory_length, g->table, g->table_length, fordlinnet_states_of(g), slot,
                                room ? out : none, room, message);
}

/* Takes a message from the peer, for the slot whose token it carries. Refused with 1, 4, 5, 3, 6, 16, 8. One with F changes nothing if it
 * names the last message heard; else a message is lost, and an abort message is made, state FORDLINNET_PEER_ABORT_WAIT. */
static inline struct fordlinnet_answer fordlinnet_hear(struct fordlinnet_group *g, const uint8_t *bytes, size_t length) {
    return fordlinnet_call(g, fordlinnet_command_of(FORDLINNET_HEAR, 0), bytes, length, 0, 0);
}

static FORDLINNET_COLD struct fordlinnet_hear_answer fordlinnet_hear_traced(struct fordlinnet_group *g, const uint8_t *bytes, size_t length,
                                                                            uint8_t *answer) {
    struct fordlinnet_answer a = fordlinnet_hear(g, bytes, length);
    struct fordlinnet_hear_answer r;
    r.refusal = (uint8_t)a.refusal;
    r.made = a.made;
    r.state = (uint8_t)a.state;
    r.moved = a.moved;
    fordlinnet_message_to(answer, &a);
    return r;
}

/* A hear with a small answer, and faster than fordlinnet_hear: a message that is made is written to `answer`, which has 44 bytes. */
static inline struct fordlinnet_hear_answer fordlinnet_hear_direct(struct fordlinnet_group *g, const uint8_t *bytes, size_t length,
                                                                   uint8_t *answer) {
    uint8_t none[1] = {0};
    if (g->tracer) return fordlinnet_hear_traced(g, bytes, length, answer);
    return fordlinnet_make_hear(g->s, g->n, g->memory, g->memory_length, g->table, g->table_length, fordlinnet_states_of(g),
                                length ? bytes : none, length, answer);
}

/* A traced shutdown, close or abort is made by its number, which answers the same. */
static FORDLINNET_COLD struct fordlinnet_finish_answer fordlinnet_finish_traced(struct fordlinnet_group *g, uint32_t number, uint32_t slot,
                                                                                uint8_t *message) {
    struct fordlinnet_answer a = fordlinnet_call(g, fordlinnet_command_of(number, slot), 0, 0, 0, 0);
    struct fordlinnet_finish_answer r;
    r.refusal = (uint8_t)a.refusal;
    r.made = a.made;
    r.reset = a.said == FORDLINNET_RESET;
    fordlinnet_message_to(message, &a);
    return r;
}

/* Sends D, done writing. The message is written to `message`, which has 44 bytes. Refused with 1, 2, 3, 6, 7. */
static inline struct fordlinnet_finish_answer fordlinnet_shutdown(struct fordlinnet_group *g, uint32_t slot, uint8_t *message) {
    if (g->tracer) return fordlinnet_finish_traced(g, FORDLINNET_SHUTDOWN, slot, message);
    return fordlinnet_make_shutdown(g->s, g->n, g->memory, g->memory_length, g->table, g->table_length, fordlinnet_states_of(g), slot,
                                    message);
}

/* Sends C, and closes the slot if C was heard; with unread bytes it resets the connection instead. Message and refusals as shutdown's. */
static inline struct fordlinnet_finish_answer fordlinnet_close(struct fordlinnet_group *g, uint32_t slot, uint8_t *message) {
    if (g->tracer) return fordlinnet_finish_traced(g, FORDLINNET_CLOSE, slot, message);
    return fordlinnet_make_close(g->s, g->n, g->memory, g->memory_length, g->table, g->table_length, fordlinnet_states_of(g), slot,
                                 message);
}

/* Sends A. Message and refusals as shutdown's. */
static inline struct fordlinnet_finish_answer fordlinnet_abort(struct fordlinnet_group *g, uint32_t slot, uint8_t *message) {
    if (g->tracer) return fordlinnet_finish_traced(g, FORDLINNET_ABORT, slot, message);
    return fordlinnet_make_abort(g->s, g->n, g->memory, g->memory_length, g->table, g->table_length, fordlinnet_states_of(g), slot,
                                 message);
}

/* Who is told of the calls that stand beside the groups, the pool's and set-up, after each. fordlinnet_trace.h has one that writes them
 * down for `replay`. */
struct fordlinnet_beside_tracer {
    void (*took)(struct fordlinnet_beside_tracer *to, const struct fordlinnet_books *before, uint32_t units,
                 const struct fordlinnet_pool_answer *answer);
    void (*returned)(struct fordlinnet_beside_tracer *to, const struct fordlinnet_books *before, uint32_t start, uint32_t units,
                     const struct fordlinnet_pool_answer *answer);
    void (*set_up)(struct fordlinnet_beside_tracer *to, const struct fordlinnet_settings *settings, uint32_t due, const uint8_t *bytes,
                   size_t length, const struct fordlinnet_setup_answer *answer);
};

/* One for the program (for the file, where the compiler has no weak symbols). Null: nobody is told, which costs a test a call. A program of
 * several threads that sets it makes these calls one at a time. */
#if defined(__GNUC__)
__attribute__((weak)) struct fordlinnet_beside_tracer *fordlinnet_beside;
#else
static struct fordlinnet_beside_tracer *fordlinnet_beside;
#endif

/* The message to send, an open's arguments and a diagnosis, or a refusal: of our settings, the message due and the peer's bytes. */
static inline struct fordlinnet_setup_answer fordlinnet_setup(struct fordlinnet_settings settings, uint32_t due, const uint8_t *bytes,
                                                              size_t length) {
    uint8_t none[1] = {0};
    struct fordlinnet_setup_answer a = fordlinnet_make_setup(settings, due, length ? bytes : none, length);
    if (fordlinnet_beside) fordlinnet_beside->set_up(fordlinnet_beside, &settings, due, bytes, length, &a);
    return a;
}

/* Takes a block from the pool, and returns one to it. */
static inline struct fordlinnet_pool_answer fordlinnet_take_block(struct fordlinnet_books books, uint32_t units) {
    struct fordlinnet_pool_answer a = fordlinnet_pool_take(books, units);
    if (fordlinnet_beside) fordlinnet_beside->took(fordlinnet_beside, &books, units, &a);
    return a;
}

static inline struct fordlinnet_pool_answer fordlinnet_return_block(struct fordlinnet_books books, uint32_t start, uint32_t units) {
    struct fordlinnet_pool_answer a = fordlinnet_pool_return(books, start, units);
    if (fordlinnet_beside) fordlinnet_beside->returned(fordlinnet_beside, &books, start, units, &a);
    return a;
}

/* Books of which nothing was given out. */
static inline struct fordlinnet_books fordlinnet_fresh_books(void) { return fordlinnet_pool_free(); }

/* A refusal of a group's call in words. */
static inline const char *fordlinnet_refusal_words(uint32_t refusal) {
    switch (refusal) {
        case FORDLINNET_WRONG_SIZES: return "S, N, the memory's length or the table's is wrong, or a call on links is lent a short buffer";
        case FORDLINNET_NOT_OPEN: return "the slot is outside 1 to S, or closed";
        case FORDLINNET_INCOHERENT: return "the open record is not coherent";
        case FORDLINNET_MALFORMED: return "not 44 bytes, or their first or second byte is wrong";
        case FORDLINNET_NO_TOKEN: return "no open slot has the token, or it is 0";
        case FORDLINNET_LINK_DOWN: return "the connection's or named link is down (not for 01 on the link being added)";
        case FORDLINNET_STATE_FORBIDS: return "the state forbids";
        case FORDLINNET_CURSOR_RULE: return "a cursor rule of hear is broken";
        case FORDLINNET_NOT_FREE: return "a placed byte is outside the data or not free";
        case FORDLINNET_ALREADY_OPEN: return "the slot is already open";
        case FORDLINNET_TOKEN_HELD: return "the own token is held by another open slot";
        case FORDLINNET_BAD_OPENING: return "a zero token, or the peer's element is out of range";
        case FORDLINNET_NO_LINK: return "the link number is outside 1 to 4";
        case FORDLINNET_CARRIED_LINK: return "a carried link number acted on is outside 1 to 4";
        case FORDLINNET_BARRED: return "a fifth link message to queue, or a link send that is barred or replies unasked";
        case FORDLINNET_NOT_NEXT: return "the sequence number is not the next";
        case FORDLINNET_NO_SAMPLE: return "the answer time is no sample";
        case FORDLINNET_NO_SIZE: return "not 1, 2, 4, 8, 16, 32 or 64 units";
        case FORDLINNET_NO_BLOCK: return "no block of that size is free";
        case FORDLINNET_NOT_GIVEN_OUT: return "not given out in that place and size";
        default: return "no refusal";
    }
}

/* A refusal of the pool in words: 3 is of its books. */
static inline const char *fordlinnet_pool_refusal_words(uint32_t refusal) {
    return refusal == FORDLINNET_INCOHERENT ? "the pool's books are not coherent" : fordlinnet_refusal_words(refusal);
}

/* A refusal of set-up in words. */
static inline const char *fordlinnet_setup_refusal_words(uint32_t refusal) {
    switch (refusal) {
        case FORDLINNET_SETUP_NO_CODE: return "our element size has no code";
        case FORDLINNET_SETUP_NO_MESSAGE: return "the bytes are no message of A.2";
        case FORDLINNET_SETUP_NOT_DUE: return "the message is not due";
        default: return "no refusal";
    }
}

/* A state by its name in RFC 7609. */
static inline const char *fordlinnet_state_words(uint32_t state) {
    switch (state) {
        case FORDLINNET_ACTIVE: return "Active";
        case FORDLINNET_PEER_CLOSE_WAIT_1: return "PeerCloseWait1";
        case FORDLINNET_PEER_CLOSE_WAIT_2: return "PeerCloseWait2";
        case FORDLINNET_APP_CLOSE_WAIT_1: return "AppCloseWait1";
        case FORDLINNET_APP_CLOSE_WAIT_2: return "AppCloseWait2";
        case FORDLINNET_PEER_ABORT_WAIT: return "PeerAbortWait";
        case FORDLINNET_CLOSED: return "Closed";
        default: return "no state";
    }
}

/* Set-up's arguments as open takes them, beside their slot. */
static inline struct fordlinnet_opening fordlinnet_opening_of(struct fordlinnet_arguments a) {
    struct fordlinnet_opening o;
    o.own = a.own;
    o.peer = a.token;
    o.link = a.link;
    o.remote.size = a.size;
    o.remote.index = a.index;
    o.remote.link1.key = a.key1;
    o.remote.link1.base = a.base1;
    o.remote.link2.key = a.key2;
    o.remote.link2.base = a.base2;
    o.remote.link3.key = a.key3;
    o.remote.link3.base = a.base3;
    o.remote.link4.key = a.key4;
    o.remote.link4.base = a.base4;
    return o;
}

#ifdef __cplusplus
}
#endif

#endif
