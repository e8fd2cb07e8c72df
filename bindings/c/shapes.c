/* Holds the header's structs to what the proved side has: sizes and offsets, and every field of every struct, as the functions
 * fordlinnet_shape_* fill it. Ends with status 1 at the first difference. */
#include <stdio.h>
#include <stdlib.h>

#include "fordlinnet.h"

/* Offset and size of each field, and each struct's size, by the rules of #[repr(C)] from the fields of the Rattle sources. */
#define AT(s, f, offset, size)                                                      \
    _Static_assert(offsetof(struct fordlinnet_##s, f) == (offset), #s "." #f); \
    _Static_assert(sizeof((struct fordlinnet_##s *)0)->f == (size), #s "." #f)
#define SIZE(s, size) _Static_assert(sizeof(struct fordlinnet_##s) == (size), #s)

SIZE(cursor, 8);
AT(cursor, offset, 0, 4);
AT(cursor, wrap, 4, 2);
SIZE(side, 2);
AT(side, done, 0, 1);
AT(side, closed, 1, 1);
SIZE(marks, 6);
AT(marks, sent, 0, 2);
AT(marks, heard, 2, 2);
AT(marks, first, 4, 1);
AT(marks, abort, 5, 1);
SIZE(identity, 16);
AT(identity, opened, 0, 1);
AT(identity, own, 4, 4);
AT(identity, peer, 8, 4);
AT(identity, link, 12, 1);
SIZE(rtoken, 16);
AT(rtoken, key, 0, 4);
AT(rtoken, base, 8, 8);
SIZE(remote, 72);
AT(remote, size, 0, 4);
AT(remote, index, 4, 4);
AT(remote, link1, 8, 16);
AT(remote, link2, 24, 16);
AT(remote, link3, 40, 16);
AT(remote, link4, 56, 16);
SIZE(urgent, 12);
AT(urgent, standing, 0, 1);
AT(urgent, place, 4, 8);
SIZE(inbound, 40);
AT(inbound, producer, 0, 8);
AT(inbound, consumer, 8, 8);
AT(inbound, told, 16, 8);
AT(inbound, last, 24, 2);
AT(inbound, blocked, 26, 1);
AT(inbound, request, 27, 1);
AT(inbound, urgent, 28, 12);
SIZE(outbound, 32);
AT(outbound, producer, 0, 8);
AT(outbound, consumer, 8, 8);
AT(outbound, next, 16, 2);
AT(outbound, blocked, 18, 1);
AT(outbound, urgent, 20, 12);
SIZE(record, 168);
AT(record, id, 0, 16);
AT(record, remote, 16, 72);
AT(record, inbound, 88, 40);
AT(record, outbound, 128, 32);
AT(record, marks, 160, 6);
SIZE(gauge, 24);
AT(gauge, mean, 0, 8);
AT(gauge, worst, 8, 8);
AT(gauge, count, 16, 1);
AT(gauge, late, 17, 1);
SIZE(exchange, 3);
AT(exchange, stage, 0, 1);
AT(exchange, v, 1, 1);
AT(exchange, w, 2, 1);
SIZE(waiting, 45);
AT(waiting, link, 0, 1);
AT(waiting, bytes, 1, 44);
SIZE(queue, 181);
AT(queue, count, 0, 1);
AT(queue, places, 1, 180);
SIZE(links, 296);
AT(links, active, 0, 4);
AT(links, gauges, 8, 96);
AT(links, server, 104, 1);
AT(links, exchange, 105, 3);
AT(links, queue, 108, 181);
SIZE(opening, 88);
AT(opening, own, 0, 4);
AT(opening, peer, 4, 4);
AT(opening, link, 8, 1);
AT(opening, remote, 16, 72);
SIZE(command, 112);
AT(command, number, 0, 4);
AT(command, slot, 4, 4);
AT(command, offset, 8, 4);
AT(command, ms, 12, 4);
AT(command, link, 16, 1);
AT(command, opening, 24, 88);
SIZE(placing, 24);
AT(placing, key, 0, 4);
AT(placing, address, 8, 8);
AT(placing, start, 16, 4);
AT(placing, len, 20, 4);
SIZE(answer, 440);
AT(answer, said, 0, 4);
AT(answer, refusal, 4, 4);
AT(answer, n, 8, 4);
AT(answer, state, 12, 4);
AT(answer, moved, 16, 8);
AT(answer, health, 24, 4);
AT(answer, placings, 28, 4);
AT(answer, first, 32, 24);
AT(answer, second, 56, 24);
AT(answer, mean, 80, 8);
AT(answer, worst, 88, 8);
AT(answer, made, 96, 1);
AT(answer, message, 97, 44);
AT(answer, links, 144, 296);
SIZE(fields, 104);
AT(fields, kind, 0, 1);
AT(fields, values, 8, 96);
SIZE(taken_up, 112);
AT(taken_up, some, 0, 1);
AT(taken_up, link, 1, 1);
AT(taken_up, fate, 4, 4);
AT(taken_up, fields, 8, 104);
SIZE(link_command, 112);
AT(link_command, number, 0, 4);
AT(link_command, link, 4, 1);
AT(link_command, up, 5, 1);
AT(link_command, fields, 8, 104);
SIZE(link_answer, 584);
AT(link_answer, said, 0, 4);
AT(link_answer, refusal, 4, 4);
AT(link_answer, fate, 8, 4);
AT(link_answer, fields, 16, 104);
AT(link_answer, up, 120, 112);
AT(link_answer, count, 232, 4);
AT(link_answer, made, 236, 1);
AT(link_answer, message, 237, 44);
AT(link_answer, links, 288, 296);
SIZE(piece, 24);
AT(piece, buffer, 0, 4);
AT(piece, start, 4, 4);
AT(piece, len, 8, 4);
AT(piece, key, 12, 4);
AT(piece, address, 16, 8);
SIZE(link_states, 4);
AT(link_states, active, 0, 4);
SIZE(read_answer, 8);
AT(read_answer, refusal, 0, 1);
AT(read_answer, torn, 1, 1);
AT(read_answer, made, 2, 1);
AT(read_answer, n, 4, 4);
SIZE(send_answer, 56);
AT(send_answer, refusal, 0, 1);
AT(send_answer, made, 1, 1);
AT(send_answer, placings, 2, 1);
AT(send_answer, n, 4, 4);
AT(send_answer, first, 8, 24);
AT(send_answer, second, 32, 24);
SIZE(hear_answer, 16);
AT(hear_answer, refusal, 0, 1);
AT(hear_answer, made, 1, 1);
AT(hear_answer, state, 2, 1);
AT(hear_answer, moved, 8, 8);
SIZE(finish_answer, 3);
AT(finish_answer, refusal, 0, 1);
AT(finish_answer, made, 1, 1);
AT(finish_answer, reset, 2, 1);
SIZE(gather_answer, 104);
AT(gather_answer, refusal, 0, 1);
AT(gather_answer, made, 1, 1);
AT(gather_answer, n, 4, 4);
AT(gather_answer, pieces, 8, 72);
AT(gather_answer, last, 80, 24);
SIZE(view, 24);
AT(view, health, 0, 4);
AT(view, shown, 4, 4);
AT(view, mean, 8, 8);
AT(view, worst, 16, 8);
SIZE(books, 64);
AT(books, sizes, 0, 64);
SIZE(pool_answer, 76);
AT(pool_answer, said, 0, 4);
AT(pool_answer, refusal, 4, 4);
AT(pool_answer, start, 8, 4);
AT(pool_answer, books, 12, 64);
SIZE(settings, 280);
AT(settings, size, 0, 4);
AT(settings, peer, 4, 8);
AT(settings, gid, 12, 16);
AT(settings, mac, 28, 6);
AT(settings, mask, 34, 4);
AT(settings, masklen, 38, 1);
AT(settings, count, 39, 1);
AT(settings, prefixes, 40, 136);
AT(settings, first, 176, 1);
AT(settings, qp, 180, 4);
AT(settings, mtu, 184, 1);
AT(settings, psn, 188, 4);
AT(settings, key, 192, 4);
AT(settings, base, 200, 8);
AT(settings, slot, 208, 1);
AT(settings, own, 212, 4);
AT(settings, link, 216, 1);
AT(settings, key1, 220, 4);
AT(settings, base1, 224, 8);
AT(settings, key2, 232, 4);
AT(settings, base2, 240, 8);
AT(settings, key3, 248, 4);
AT(settings, base3, 256, 8);
AT(settings, key4, 264, 4);
AT(settings, base4, 272, 8);
SIZE(arguments, 88);
AT(arguments, slot, 0, 1);
AT(arguments, own, 4, 4);
AT(arguments, token, 8, 4);
AT(arguments, link, 12, 1);
AT(arguments, size, 16, 4);
AT(arguments, index, 20, 1);
AT(arguments, key1, 24, 4);
AT(arguments, base1, 32, 8);
AT(arguments, key2, 40, 4);
AT(arguments, base2, 48, 8);
AT(arguments, key3, 56, 4);
AT(arguments, base3, 64, 8);
AT(arguments, key4, 72, 4);
AT(arguments, base4, 80, 8);
SIZE(setup_answer, 304);
AT(setup_answer, said, 0, 4);
AT(setup_answer, refusal, 4, 4);
AT(setup_answer, opens, 8, 1);
AT(setup_answer, declined, 9, 1);
AT(setup_answer, diagnosis, 12, 4);
AT(setup_answer, count, 16, 8);
AT(setup_answer, arguments, 24, 88);
AT(setup_answer, message, 112, 188);

static const char *what;
static unsigned field, fields, one;

static void begin(const char *name) {
    what = name;
    if (fields < field) fields = field;
    field = 0;
}

static void hold(int same) {
    if (same) return;
    printf("%s: field %u is not where the proved side has it\n", what, field);
    exit(1);
}

/* field i has i in its lowest and its highest byte */
static void number(unsigned long long value, size_t size) {
    field++;
    hold(value == (size == 1 ? field : field + ((unsigned long long)field << (8 * size - 8))));
}

#define NUMBER(f) number(f, sizeof f)

static void number_f(double value) {
    field++;
    hold(value == field);
}

static void flag(bool value) {
    field++;
    hold(value == (one == field));
}

static void bytes(const uint8_t *value, size_t count) {
    size_t i;
    field++;
    for (i = 0; i < count; i++) hold(value[i] == field);
}

static void see_record(struct fordlinnet_record v) {
    begin("record");
    flag(v.id.opened);
    NUMBER(v.id.own);
    NUMBER(v.id.peer);
    NUMBER(v.id.link);
    NUMBER(v.remote.size);
    NUMBER(v.remote.index);
    NUMBER(v.remote.link1.key);
    NUMBER(v.remote.link1.base);
    NUMBER(v.remote.link2.key);
    NUMBER(v.remote.link2.base);
    NUMBER(v.remote.link3.key);
    NUMBER(v.remote.link3.base);
    NUMBER(v.remote.link4.key);
    NUMBER(v.remote.link4.base);
    NUMBER(v.inbound.producer.offset);
    NUMBER(v.inbound.producer.wrap);
    NUMBER(v.inbound.consumer.offset);
    NUMBER(v.inbound.consumer.wrap);
    NUMBER(v.inbound.told.offset);
    NUMBER(v.inbound.told.wrap);
    NUMBER(v.inbound.last);
    flag(v.inbound.blocked);
    flag(v.inbound.request);
    flag(v.inbound.urgent.standing);
    NUMBER(v.inbound.urgent.place.offset);
    NUMBER(v.inbound.urgent.place.wrap);
    NUMBER(v.outbound.producer.offset);
    NUMBER(v.outbound.producer.wrap);
    NUMBER(v.outbound.consumer.offset);
    NUMBER(v.outbound.consumer.wrap);
    NUMBER(v.outbound.next);
    flag(v.outbound.blocked);
    flag(v.outbound.urgent.standing);
    NUMBER(v.outbound.urgent.place.offset);
    NUMBER(v.outbound.urgent.place.wrap);
    flag(v.marks.sent.done);
    flag(v.marks.sent.closed);
    flag(v.marks.heard.done);
    flag(v.marks.heard.closed);
    flag(v.marks.first);
    flag(v.marks.abort);
}

static void links(struct fordlinnet_links v) {
    size_t i;
    for (i = 0; i < 4; i++) flag(v.active[i]);
    for (i = 0; i < 4; i++) {
        number_f(v.gauges[i].mean);
        number_f(v.gauges[i].worst);
        NUMBER(v.gauges[i].count);
        flag(v.gauges[i].late);
    }
    flag(v.server);
    NUMBER(v.exchange.stage);
    NUMBER(v.exchange.v);
    NUMBER(v.exchange.w);
    NUMBER(v.queue.count);
    for (i = 0; i < 4; i++) {
        NUMBER(v.queue.places[i].link);
        bytes(v.queue.places[i].bytes, 44);
    }
}

static void see_links(struct fordlinnet_links v) {
    begin("links");
    links(v);
}

static void see_command(struct fordlinnet_command v) {
    begin("command");
    NUMBER(v.number);
    NUMBER(v.slot);
    NUMBER(v.offset);
    NUMBER(v.ms);
    NUMBER(v.link);
    NUMBER(v.opening.own);
    NUMBER(v.opening.peer);
    NUMBER(v.opening.link);
    NUMBER(v.opening.remote.size);
    NUMBER(v.opening.remote.index);
    NUMBER(v.opening.remote.link1.key);
    NUMBER(v.opening.remote.link1.base);
    NUMBER(v.opening.remote.link2.key);
    NUMBER(v.opening.remote.link2.base);
    NUMBER(v.opening.remote.link3.key);
    NUMBER(v.opening.remote.link3.base);
    NUMBER(v.opening.remote.link4.key);
    NUMBER(v.opening.remote.link4.base);
}

static void see_answer(struct fordlinnet_answer v) {
    begin("answer");
    NUMBER(v.said);
    NUMBER(v.refusal);
    NUMBER(v.n);
    NUMBER(v.state);
    NUMBER(v.moved);
    NUMBER(v.health);
    NUMBER(v.placings);
    NUMBER(v.first.key);
    NUMBER(v.first.address);
    NUMBER(v.first.start);
    NUMBER(v.first.len);
    NUMBER(v.second.key);
    NUMBER(v.second.address);
    NUMBER(v.second.start);
    NUMBER(v.second.len);
    number_f(v.mean);
    number_f(v.worst);
    flag(v.made);
    bytes(v.message, 44);
    links(v.links);
}

static void fields_of(struct fordlinnet_fields v) {
    size_t i;
    NUMBER(v.kind);
    for (i = 0; i < 12; i++) NUMBER(v.values[i]);
}

static void see_link_command(struct fordlinnet_link_command v) {
    begin("link_command");
    NUMBER(v.number);
    NUMBER(v.link);
    flag(v.up);
    fields_of(v.fields);
}

static void see_link_answer(struct fordlinnet_link_answer v) {
    begin("link_answer");
    NUMBER(v.said);
    NUMBER(v.refusal);
    NUMBER(v.fate);
    fields_of(v.fields);
    flag(v.up.some);
    NUMBER(v.up.link);
    NUMBER(v.up.fate);
    fields_of(v.up.fields);
    NUMBER(v.count);
    flag(v.made);
    bytes(v.message, 44);
    links(v.links);
}

static void see_view(struct fordlinnet_view v) {
    begin("view");
    NUMBER(v.health);
    NUMBER(v.shown);
    number_f(v.mean);
    number_f(v.worst);
}

static void see_link_states(struct fordlinnet_link_states v) {
    int i;
    begin("link_states");
    for (i = 0; i < 4; i++) flag(v.active[i]);
}

static void see_read_answer(struct fordlinnet_read_answer v) {
    begin("read_answer");
    NUMBER(v.refusal);
    flag(v.torn);
    flag(v.made);
    NUMBER(v.n);
}

static void see_send_answer(struct fordlinnet_send_answer v) {
    begin("send_answer");
    NUMBER(v.refusal);
    flag(v.made);
    NUMBER(v.placings);
    NUMBER(v.n);
    NUMBER(v.first.key);
    NUMBER(v.first.address);
    NUMBER(v.first.start);
    NUMBER(v.first.len);
    NUMBER(v.second.key);
    NUMBER(v.second.address);
    NUMBER(v.second.start);
    NUMBER(v.second.len);
}

static void see_gather_answer(struct fordlinnet_gather_answer v) {
    begin("gather_answer");
    NUMBER(v.refusal);
    flag(v.made);
    NUMBER(v.n);
    for (int i = 0; i < 3; i++) {
        NUMBER(v.pieces[i].buffer);
        NUMBER(v.pieces[i].start);
        NUMBER(v.pieces[i].len);
        NUMBER(v.pieces[i].key);
        NUMBER(v.pieces[i].address);
    }
    NUMBER(v.last.key);
    NUMBER(v.last.address);
    NUMBER(v.last.start);
    NUMBER(v.last.len);
}

static void see_hear_answer(struct fordlinnet_hear_answer v) {
    begin("hear_answer");
    NUMBER(v.refusal);
    flag(v.made);
    NUMBER(v.state);
    NUMBER(v.moved);
}

static void see_finish_answer(struct fordlinnet_finish_answer v) {
    begin("finish_answer");
    NUMBER(v.refusal);
    flag(v.made);
    flag(v.reset);
}

static void see_pool_answer(struct fordlinnet_pool_answer v) {
    begin("pool_answer");
    NUMBER(v.said);
    NUMBER(v.refusal);
    NUMBER(v.start);
    bytes(v.books.sizes, 64);
}

static void see_settings(struct fordlinnet_settings v) {
    begin("settings");
    NUMBER(v.size);
    bytes(v.peer, 8);
    bytes(v.gid, 16);
    bytes(v.mac, 6);
    bytes(v.mask, 4);
    NUMBER(v.masklen);
    NUMBER(v.count);
    bytes(v.prefixes, 136);
    flag(v.first);
    NUMBER(v.qp);
    NUMBER(v.mtu);
    NUMBER(v.psn);
    NUMBER(v.key);
    NUMBER(v.base);
    NUMBER(v.slot);
    NUMBER(v.own);
    NUMBER(v.link);
    NUMBER(v.key1);
    NUMBER(v.base1);
    NUMBER(v.key2);
    NUMBER(v.base2);
    NUMBER(v.key3);
    NUMBER(v.base3);
    NUMBER(v.key4);
    NUMBER(v.base4);
}

static void see_setup_answer(struct fordlinnet_setup_answer v) {
    begin("setup_answer");
    NUMBER(v.said);
    NUMBER(v.refusal);
    flag(v.opens);
    flag(v.declined);
    NUMBER(v.diagnosis);
    NUMBER(v.count);
    NUMBER(v.arguments.slot);
    NUMBER(v.arguments.own);
    NUMBER(v.arguments.token);
    NUMBER(v.arguments.link);
    NUMBER(v.arguments.size);
    NUMBER(v.arguments.index);
    NUMBER(v.arguments.key1);
    NUMBER(v.arguments.base1);
    NUMBER(v.arguments.key2);
    NUMBER(v.arguments.base2);
    NUMBER(v.arguments.key3);
    NUMBER(v.arguments.base3);
    NUMBER(v.arguments.key4);
    NUMBER(v.arguments.base4);
    bytes(v.message, 188);
}

int main(void) {
    see_view(fordlinnet_shape_view());
    see_pool_answer(fordlinnet_shape_pool_answer());
    see_command(fordlinnet_shape_command());
    for (one = 0; one <= fields + 1; one++) {
        see_record(fordlinnet_shape_record(one));
        see_links(fordlinnet_shape_links(one));
        see_link_command(fordlinnet_shape_link_command(one));
        see_answer(fordlinnet_shape_answer(one));
        see_link_answer(fordlinnet_shape_link_answer(one));
        see_link_states(fordlinnet_shape_link_states(one));
        see_read_answer(fordlinnet_shape_read_answer(one));
        see_send_answer(fordlinnet_shape_send_answer(one));
        see_hear_answer(fordlinnet_shape_hear_answer(one));
        see_finish_answer(fordlinnet_shape_finish_answer(one));
        see_gather_answer(fordlinnet_shape_gather_answer(one));
        see_settings(fordlinnet_shape_settings(one));
        see_setup_answer(fordlinnet_shape_setup_answer(one));
        begin("");
    }
    printf("%u rounds, all fields as the proved side has them\n", one);
    return 0;
}
