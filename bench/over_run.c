// Calls on a table over a run: the proved layer and the C version are lent equal runs and asked the same. What is timed is one call, as
// a program makes it that holds head and run. Where a call alters the head, the proved layer's new one is stored where the old one lay;
// enable and disable leave it as it was.
#include "calls.h"
#include "day.h"
#include "measure.h"

int printf(const char *format, ...);
int sprintf(char *to, const char *format, ...);

enum { LARGEST = 4092 };
enum kind { START, ENABLE, DISABLE, SET_AREA, OWN_MID, INDICATION, REQUEST, ADDRESS, KINDS };
static const u64 NO_STOP = 60000;
static int wrong;

// What each side holds, is given and answers. The C version's indication and request hold their packet and next hop; the proved
// layer's are lent beside them. What is longest begins where a line of the cache does: whether a value lies across two lines decides
// what it costs, and must not be left to chance.
#define AT_A_LINE __attribute__((aligned(64)))

struct box {
    struct head head AT_A_LINE;
    struct indication indication AT_A_LINE;
    struct request request AT_A_LINE;
    struct reception got AT_A_LINE;
    struct sending sent AT_A_LINE;
    struct run run AT_A_LINE;
    struct buffer out;
    usize index, link;
    u64 mid;
    u8 address[16];
    u8 number;
};

struct proved_box {
    struct proved_head head AT_A_LINE;
    struct indication_head indication AT_A_LINE;
    struct request_head request AT_A_LINE;
    struct proved_reception got AT_A_LINE;
    struct proved_sending sent AT_A_LINE;
    struct head_reply reply AT_A_LINE;
    struct begun begun AT_A_LINE;
    struct perhaps_area area AT_A_LINE;
    struct run run AT_A_LINE;
    struct buffer out;
    struct packet packet, hop;
    struct interface_address address;
    usize index;
};

// Both, and what they are given alike. `unused` is the place of the record that an enable takes.
struct boxes {
    struct box c;
    struct proved_box proved;
    struct start_values start AT_A_LINE;
    struct settings settings AT_A_LINE;
    u64 own;
    usize unused;
};

// One call of each kind. It is inlined where the kind is known.
static inline __attribute__((always_inline)) void call_c(enum kind k, struct boxes *x) {
    struct box *b = &x->c;
    switch (k) {
    case START: b->number = c_start(&b->head, b->run, &x->start); break;
    case ENABLE: b->number = c_enable(&b->head, b->run, &x->settings, &b->link); break;
    case DISABLE: b->number = c_disable(&b->head, b->run, b->index); break;
    case SET_AREA: b->number = c_set_area(&b->head, b->run, !x->proved.area.unset, &x->proved.area.area); break;
    case OWN_MID: b->number = c_set_own_mid(&b->head, b->run, x->own); break;
    case INDICATION: b->number = c_indication(&b->head, b->run, &b->indication, b->out, &b->got); break;
    case REQUEST: b->number = c_request(&b->head, b->run, &b->request, &b->sent); break;
    default: b->number = c_interface_address(&b->head, b->run, b->index, &b->mid, b->address);
    }
}

static inline __attribute__((always_inline)) void call_proved(enum kind k, struct boxes *x) {
    struct proved_box *b = &x->proved;
    switch (k) {
    case START:
        proved_start(&b->begun, &b->run, &x->start);
        if (!b->begun.head.nothing) b->head = b->begun.head.head;
        return;
    case ENABLE: proved_enable(&b->reply, &b->run, &b->head, &x->settings); return;
    case DISABLE: proved_disable(&b->reply, &b->run, &b->head, &b->index); return;
    case SET_AREA: proved_set_area(&b->reply, &b->run, &b->head, &b->area); break;
    case OWN_MID: proved_set_own_mid(&b->reply, &b->run, &b->head, x->own); break;
    case INDICATION: proved_indication(&b->got, &b->run, &b->head, &b->indication, &b->packet, &b->out); return;
    case REQUEST: proved_request(&b->sent, &b->run, &b->head, &b->request, &b->hop, &b->packet); return;
    default: proved_interface_address(&b->address, &b->run, &b->head, &b->index); return;
    }
    b->head = b->reply.head;
}

// ---- are the two answers the same?

static u8 proved_number(enum kind k, const struct proved_box *b) {
    switch (k) {
    case START: return b->begun.number;
    case INDICATION: return b->got.number;
    case REQUEST: return b->sent.number;
    case ADDRESS: return b->address.number;
    default: return b->reply.number;
    }
}

static bool same_interface(struct interface f, struct interface g) { return f.kind == g.kind && f.flag == g.flag; }

static bool same_area(const struct area *x, const struct area *y) {
    return x->shape == y->shape && x->latitude == y->latitude && x->longitude == y->longitude && x->a == y->a && x->b == y->b
        && x->angle == y->angle;
}

static bool same_head(const struct head *t, const struct proved_head *u) {
    return t->own == u->own && t->max == u->max && same_interface(t->tvl, u->tvl) && same_interface(t->dgvl, u->dgvl)
        && t->has_area == !u->area.unset && (!t->has_area || same_area(&t->area, &u->area.area));
}

static bool same_slot(const struct slot *x, const struct slot *y) {
    const struct prefixes *p = &x->settings.prefixes, *q = &y->settings.prefixes;
    return x->enabled == y->enabled && same_area(&x->settings.area, &y->settings.area)
        && same_interface(x->settings.interface, y->settings.interface) && p->count == q->count
        && memcmp(p->lengths, q->lengths, sizeof p->lengths) == 0 && memcmp(p->highs, q->highs, sizeof p->highs) == 0
        && memcmp(p->lows, q->lows, sizeof p->lows) == 0;
}

static bool same_destination(const struct destination *d, const union proved_destination *e) {
    if (d->sort == MID) return e->sort == PROVED_MID && d->mid == e->mid;
    if (d->sort == WITHIN) return e->sort == PROVED_WITHIN && same_area(&d->area, &e->area);
    return e->sort == PROVED_NOTHING;
}

static bool same_reception(const struct box *b, const struct proved_reception *g) {
    if (b->got.place != g->place) return false;
    if (b->number != 0) return g->link.nothing && g->length == 0;
    return !g->link.nothing && b->got.link == g->link.link && b->got.length == g->length && b->got.source == g->source
        && b->got.class == g->class;
}

static bool same_sending(const struct box *b, const struct proved_sending *s) {
    if (b->sent.place != s->place) return false;
    if (b->number != 0) return s->length == 0;
    return b->sent.transport == s->transport && same_destination(&b->sent.destination, &s->destination) && b->sent.class == s->class
        && b->sent.length == s->length;
}

// The head of a reply is the box's own: where the call altered it, it was stored there.
static bool same_reply(const struct proved_box *p, bool no_link) {
    const struct proved_head *t = &p->head, *u = &p->reply.head;
    struct head own = { u->own, u->max, u->tvl, u->dgvl, !u->area.unset, u->area.area };
    return p->reply.link.nothing == no_link && same_head(&own, t);
}

static bool same_answer(enum kind k, const struct box *b, const struct proved_box *p) {
    bool done = b->number == 0;
    if (b->number != proved_number(k, p)) return false;
    switch (k) {
    case START: return p->begun.head.nothing == !done;
    case ENABLE: return same_reply(p, !done) && (!done || b->link == p->reply.link.link);
    case INDICATION: return same_reception(b, &p->got);
    case REQUEST: return same_sending(b, &p->sent);
    case ADDRESS: return !done || (b->mid == p->address.mid && memcmp(b->address, p->address.address, 16) == 0);
    default: return same_reply(p, true);
    }
}

// The answers, the heads, as many records as the two runs have, and the buffers.
static bool alike(enum kind k, const struct boxes *x, usize records) {
    if (!same_answer(k, &x->c, &x->proved) || !same_head(&x->c.head, &x->proved.head)) return false;
    for (usize i = 0; i < records; i++)
        if (!same_slot(&x->c.run.slots[i], &x->proved.run.slots[i])) return false;
    return memcmp(x->c.out.bytes, x->proved.out.bytes, ROOM) == 0;
}

// ---- what both are given

static void give_indication(struct boxes *x, u8 transport, u64 source, u8 class, struct destination d, struct packet p) {
    x->c.indication = (struct indication){ transport, source, class, d, p };
    x->proved.indication = (struct indication_head){ transport, source, class, { .sort = PROVED_NOTHING } };
    union proved_destination *e = &x->proved.indication.destination;
    if (d.sort == MID) e->sort = PROVED_MID, e->mid = d.mid;
    if (d.sort == WITHIN) e->sort = PROVED_WITHIN, e->area = d.area;
    x->proved.packet = p;
}

static void give_request(struct boxes *x, usize index, u8 class, bool given, u64 neighbour, const u8 *hop, struct packet p) {
    x->c.request = (struct request){ index, class, given, neighbour, hop, p };
    x->proved.request = (struct request_head){ index, class, { !given, neighbour } };
    x->proved.hop = (struct packet){ hop, 16 };
    x->proved.packet = p;
}

static void give_index(struct boxes *x, usize index) { x->c.index = x->proved.index = index; }

static void lend(struct boxes *x, usize records) { x->c.run.records = x->proved.run.records = records; }

static struct boxes *new_boxes(void) {
    static struct boxes x AT_A_LINE;
    static struct slot c_slots[LARGEST] AT_A_LINE, proved_slots[LARGEST] AT_A_LINE;
    static u8 c_out[ROOM] AT_A_LINE, proved_out[ROOM] AT_A_LINE;
    memset(c_slots, 0, sizeof c_slots);
    memset(proved_slots, 0, sizeof proved_slots);
    memset(c_out, 0xaa, ROOM);
    memset(proved_out, 0xaa, ROOM);
    x.c = (struct box){ .run.slots = c_slots, .out = { c_out, ROOM } };
    x.proved = (struct proved_box){ .run.slots = proved_slots, .out = { proved_out, ROOM } };
    return &x;
}

static void compare(enum kind k, struct boxes *x, usize records) {
    call_c(k, x);
    call_proved(k, x);
    if (!alike(k, x, records)) wrong++;
}

// ---- the rows

// A stop is a circle around its latitude, and its first prefix 2001:db8:stop::/48, as in the days (make.c); those of other operators on
// its mast are 2001:db9:stop::/48 and so on.
static struct area area_of(u64 stop) { return (struct area){ 0, (i32)stop, 0, 500, 0, 0 }; }

static struct settings settings_with(u64 stop, u8 count) {
    struct settings s = { area_of(stop), { 1, 1 }, { .count = count } };
    for (u64 k = 0; k < count; k++) {
        s.prefixes.lengths[k] = 48;
        s.prefixes.highs[k] = (0x20010db800000000 + (k << 32)) | stop << 16;
    }
    return s;
}

static struct settings settings_of(u64 stop) { return settings_with(stop, 1); }

// A table with as many records as count, all enabled, each with as many prefixes.
static struct boxes *full_table_with(usize records, u8 prefixes) {
    struct boxes *x = new_boxes();
    x->start = (struct start_values){ 0x020000000001, records + 1, { 1, 1 }, { 1, 1 } };
    lend(x, records);
    compare(START, x, records);
    for (usize s = 0; s < records; s++) {
        x->settings = settings_with(s, prefixes);
        compare(ENABLE, x, s % 64 ? 0 : records);
    }
    x->own = 0x020000000004;
    x->proved.area = (struct perhaps_area){ false, area_of(7) };
    give_index(x, records + 1);
    return x;
}

static struct boxes *full_table(usize records) { return full_table_with(records, 1); }

// Calls that change no record are repeated as they are. A start is repeated on the table that it has cleared. Behind an enable the
// record that it took is taken back, by one store on either side.
#define CALLS(c_name, proved_name, kind)                                                                          \
    static void c_name(void *what, usize times) {                                                                 \
        for (usize i = 0; i < times; i++) call_c(kind, what);                                                     \
    }                                                                                                             \
    static void proved_name(void *what, usize times) {                                                            \
        for (usize i = 0; i < times; i++) call_proved(kind, what);                                                \
    }
CALLS(c_starts, proved_starts, START)
CALLS(c_areas, proved_areas, SET_AREA)
CALLS(c_own_mids, proved_own_mids, OWN_MID)
CALLS(c_indications, proved_indications, INDICATION)
CALLS(c_requests, proved_requests, REQUEST)
CALLS(c_addresses, proved_addresses, ADDRESS)
CALLS(c_refused_enables, proved_refused_enables, ENABLE)
CALLS(c_refused_disables, proved_refused_disables, DISABLE)

static void c_enables(void *what, usize times) {
    struct boxes *x = what;
    for (usize i = 0; i < times; i++) {
        call_c(ENABLE, x);
        x->c.run.slots[x->unused].enabled = false;
    }
}

static void proved_enables(void *what, usize times) {
    struct boxes *x = what;
    for (usize i = 0; i < times; i++) {
        call_proved(ENABLE, x);
        x->proved.run.slots[x->unused].enabled = false;
    }
}

// One link after the other is disabled. Before each the link half a run away is put back, so that no call reads what was stored just
// before it.
static void next_link(struct run r, usize *index) {
    usize half = r.records / 2;
    *index = *index > r.records ? 2 : *index + 1;
    r.slots[*index - 2 < half ? *index - 2 + half : *index - 2 - half].enabled = true;
}

static void c_disables(void *what, usize times) {
    struct boxes *x = what;
    for (usize i = 0; i < times; i++) {
        next_link(x->c.run, &x->c.index);
        call_c(DISABLE, x);
    }
}

static void proved_disables(void *what, usize times) {
    struct boxes *x = what;
    for (usize i = 0; i < times; i++) {
        next_link(x->proved.run, &x->proved.index);
        call_proved(DISABLE, x);
    }
}

static const struct work repeated[KINDS] = {
    [START] = { c_starts, proved_starts },
    [ENABLE] = { c_refused_enables, proved_refused_enables },
    [DISABLE] = { c_refused_disables, proved_refused_disables },
    [SET_AREA] = { c_areas, proved_areas },
    [OWN_MID] = { c_own_mids, proved_own_mids },
    [INDICATION] = { c_indications, proved_indications },
    [REQUEST] = { c_requests, proved_requests },
    [ADDRESS] = { c_addresses, proved_addresses },
};
static const struct work and_back[KINDS] = { [ENABLE] = { c_enables, proved_enables }, [DISABLE] = { c_disables, proved_disables } };

// The cost of one call, which must give this number.
static struct cost cost_of(struct work w, enum kind k, struct boxes *x, u8 number) {
    struct cost cost;
    w.what = x;
    w.c(x, 1);
    w.proved(x, 1);
    if (!alike(k, x, x->c.run.records) || x->c.number != number) wrong++;
    costs_of(&w, 1, &cost);
    if (!alike(k, x, k == DISABLE ? 0 : x->c.run.records) || x->c.number != number) wrong++;
    return cost;
}

static char name[80];

static void row(const char *format, const char *of, enum kind k, struct boxes *x, u8 number) {
    sprintf(name, format, of);
    print_row(name, cost_of(repeated[k], k, x, number));
}

// ---- enable and disable

static struct cost cost_of_enable_with(usize records, usize unused, u8 prefixes) {
    struct boxes *x = full_table_with(records, prefixes);
    x->unused = unused;
    x->c.run.slots[unused].enabled = x->proved.run.slots[unused].enabled = false;
    x->settings = settings_with(unused, prefixes);
    return cost_of(and_back[ENABLE], ENABLE, x, 0);
}

static struct cost cost_of_enable(usize records, usize unused) { return cost_of_enable_with(records, unused, 1); }

static void print_enables(const char *of, usize records) {
    sprintf(name, "enable, the first of %s unused", of);
    print_row(name, cost_of_enable(records, 0));
    sprintf(name, "enable, the last of %s unused", of);
    print_row(name, cost_of_enable(records, records - 1));
    sprintf(name, "enable, the last of %s unused, four prefixes each", of);
    print_row(name, cost_of_enable_with(records, records - 1, 4));
    struct boxes *x = full_table(records);
    x->settings = settings_of(0);
    row("enable refused: area of the first of %s (4)", of, ENABLE, x, 4);
    x->settings.area = area_of(NO_STOP);
    row("enable refused: prefix of the first of %s (5)", of, ENABLE, x, 5);
    x->settings = settings_of(NO_STOP);
    row("enable refused: %s enabled (6)", of, ENABLE, x, 6);
    sprintf(name, "disable, %s enabled", of);
    print_row(name, cost_of(and_back[DISABLE], DISABLE, x, 0));
}

// ---- what arrives and what leaves

static const u8 mast[16] = { 0xfe, 0x80, [11] = 0xff, [12] = 0xfe, [15] = 3 };
static u8 bytes[1280];

static struct packet packet_of(u64 from_stop, u64 to_stop) {
    make_packet(bytes, 40, from_stop, to_stop);
    return (struct packet){ bytes, 40 };
}

static void by_area(struct boxes *x, u64 stop) {
    struct destination within = { .sort = WITHIN, .area = area_of(stop) };
    give_indication(x, 3, 0x020000000002, 0, within, packet_of(NO_STOP, NO_STOP));
}

static void by_prefix(struct boxes *x, u64 from, u64 to) {
    struct destination mid = { .sort = MID, .mid = 0x020000000003 };
    give_indication(x, 1, 0x020000000002, 0, mid, packet_of(from, to));
}

static void print_indications(const char *of, usize records) {
    struct boxes *x = full_table(records);
    by_area(x, 0);
    row("indication by area, the first of %s", of, INDICATION, x, 0);
    by_area(x, records - 1);
    row("indication by area, the last of %s", of, INDICATION, x, 0);
    by_area(x, NO_STOP);
    row("indication by area, none of %s", of, INDICATION, x, 0);
    by_prefix(x, NO_STOP, 0);
    row("indication by prefix, the first of %s", of, INDICATION, x, 0);
    by_prefix(x, NO_STOP, records - 1);
    row("indication by prefix, the last of %s", of, INDICATION, x, 0);
    by_prefix(x, 0, NO_STOP);
    row("indication by prefix of the source, the first of %s", of, INDICATION, x, 0);
    by_prefix(x, records - 1, NO_STOP);
    row("indication by prefix of the source, the last of %s", of, INDICATION, x, 0);
    by_prefix(x, NO_STOP, NO_STOP);
    row("indication by prefix, none of %s", of, INDICATION, x, 0);
}

static void by_index(struct boxes *x, usize index, bool multicast) {
    struct packet p = packet_of(NO_STOP, NO_STOP);
    if (multicast) bytes[24] = 0xff;
    give_request(x, index, 0, false, 0, mast, p);
}

static void print_requests(const char *of, usize records) {
    struct boxes *x = full_table(records);
    by_index(x, 2, false);
    row("request, unicast on the first of %s", of, REQUEST, x, 0);
    by_index(x, records + 1, false);
    row("request, unicast on the last of %s", of, REQUEST, x, 0);
    by_index(x, records + 1, true);
    row("request, multicast on the last of %s", of, REQUEST, x, 0);
    by_index(x, records + 2, false);
    row("request refused: behind the last of %s (7)", of, REQUEST, x, 7);
}

// ---- calls whose cost does not depend on the records

static void print_others(void) {
    struct boxes *x = full_table(64);
    row("own MID%s", "", OWN_MID, x, 0);
    row("DGVL area set%s", "", SET_AREA, x, 0);
    x->proved.area.unset = true;
    row("DGVL area cleared%s", "", SET_AREA, x, 0);
    row("interface address of a stop%s", "", ADDRESS, x, 0);
    give_indication(x, 4, 0x020000000002, 0, (struct destination){ NOTHING }, packet_of(NO_STOP, NO_STOP));
    row("indication for all (TSB)%s", "", INDICATION, x, 0);
    by_index(x, 0, true);
    row("request, multicast on the topological link%s", "", REQUEST, x, 0);
}

static void print_refused(void) {
    struct boxes *x = full_table(64);
    x->start.max = 1;
    row("start refused: maximum 1 (1)%s", "", START, x, 1);
    x->settings.interface.kind = 0;
    row("enable refused: kind 0 (1)%s", "", ENABLE, x, 1);
    x->own = 1UL << 48;
    row("own MID refused (1)%s", "", OWN_MID, x, 1);
    by_prefix(x, NO_STOP, NO_STOP);
    x->c.indication.source = x->proved.indication.source = 1UL << 48;
    row("indication refused: source MID (1)%s", "", INDICATION, x, 1);
    by_index(x, 2, false);
    x->c.request.given = true, x->proved.request.neighbour.nothing = false;
    x->c.request.neighbour = x->proved.request.neighbour.mid = 1UL << 48;
    row("request refused: neighbour's MID (1)%s", "", REQUEST, x, 1);
}

static void print_too_short(void) {
    struct boxes *x = full_table(64);
    x->settings = settings_of(NO_STOP);
    by_prefix(x, NO_STOP, NO_STOP);
    lend(x, 63);
    row("start refused: run too short (23)%s", "", START, x, 23);
    row("enable refused: run too short (23)%s", "", ENABLE, x, 23);
    row("disable refused: run too short (23)%s", "", DISABLE, x, 23);
    row("DGVL area refused: run too short (23)%s", "", SET_AREA, x, 23);
    row("own MID refused: run too short (23)%s", "", OWN_MID, x, 23);
    row("indication refused: run too short (23)%s", "", INDICATION, x, 23);
    by_index(x, 2, false);
    row("request refused: run too short (23)%s", "", REQUEST, x, 23);
    row("interface address refused: run too short (23)%s", "", ADDRESS, x, 23);
}

// ---- how cost grows: what each record costs that is looked at, or cleared

static struct cost per_record(struct cost more, struct cost less, usize records) {
    double n = (double)records - 1;
    return (struct cost){ (more.c - less.c) / n, (more.proved - less.proved) / n };
}

static struct cost growth_by_prefix(usize records, u8 prefixes) {
    struct boxes *x = full_table_with(records, prefixes);
    by_prefix(x, NO_STOP, 0);
    struct cost first = cost_of(repeated[INDICATION], INDICATION, x, 0);
    by_prefix(x, NO_STOP, records - 1);
    return per_record(cost_of(repeated[INDICATION], INDICATION, x, 0), first, records);
}

static void print_growth(const char *of, usize records) {
    struct boxes *x = full_table(records);
    by_area(x, 0);
    struct cost first = cost_of(repeated[INDICATION], INDICATION, x, 0);
    by_area(x, records - 1);
    struct cost last = cost_of(repeated[INDICATION], INDICATION, x, 0);
    sprintf(name, "indication by area, each of %s", of);
    print_row(name, per_record(last, first, records));
    sprintf(name, "indication by prefix, each of %s", of);
    print_row(name, growth_by_prefix(records, 1));
    sprintf(name, "indication by prefix, each of %s with four", of);
    print_row(name, growth_by_prefix(records, 4));
    sprintf(name, "enable, each of %s", of);
    print_row(name, per_record(cost_of_enable(records, records - 1), cost_of_enable(1, 0), records));
    x = full_table(records);
    last = cost_of(repeated[START], START, x, 0);
    x = full_table(1);
    first = cost_of(repeated[START], START, x, 0);
    sprintf(name, "start, each of %s", of);
    print_row(name, per_record(last, first, records));
}

// ---- calls made up at random: both sides must answer alike there too

static u64 seed = 1;

static u64 below(u64 n) {
    seed = seed * 6364136223846793005UL + 1442695040888963407UL;
    return (seed >> 33) % n;
}

#define ONE_OF(...) ((const u64[]){ __VA_ARGS__ }[below(sizeof((const u64[]){ __VA_ARGS__ }) / 8)])

static struct area some_area(void) {
    return (struct area){ (u8)ONE_OF(0, 1, 2, 1, 2, 3), (i32)ONE_OF(0, 1, 2, 3, 900000000, 900000001),
                          (i32)ONE_OF(0, 7, 1800000000, -1800000000UL, 1800000001), (u16)ONE_OF(1, 2, 1, 2, 0), (u16)ONE_OF(1, 2, 1, 2, 0),
                          (u16)ONE_OF(0, 90, 180, 270, 359, 360) };
}

static struct interface some_interface(void) {
    return (struct interface){ (u8)ONE_OF(1, 1, 3, 1, 3, 1, 1, 2, 0, 4), (u8)ONE_OF(0, 1, 0, 1, 0, 1, 2) };
}

static u64 some_mid(void) { return ONE_OF(0, 1, 0x020000000003, 0xffffffffffff, 0x020000000004, 1UL << 48); }

static struct prefix some_prefix(void) {
    u8 length = (u8)ONE_OF(0, 16, 24, 24, 32, 32, 63, 64, 64, 65, 127, 128, 128, 129);
    u64 high = ONE_OF(0x2001000000000000, 0x2002000000000000, 0x2001010000000000, 0x2001020300000004, 0xfe80000000000000, 0xff00000000000000);
    u64 low = ONE_OF(0, 0, 1, 2, 0x8000000000000000);
    if (length < 64 && below(9)) high = length == 0 ? 0 : high >> (64 - length) << (64 - length);
    if (length < 128 && below(9)) low = length <= 64 ? 0 : low >> (128 - length) << (128 - length);
    return (struct prefix){ length, high, low };
}

// Something stands in every place, also where the count does not reach.
static struct settings some_settings(void) {
    struct settings s = { some_area(), some_interface(), { .count = (u8)ONE_OF(1, 1, 1, 1, 2, 2, 2, 3, 3, 4, 0, 5, 255) } };
    for (usize k = 0; k < 4; k++) {
        struct prefix p = some_prefix();
        s.prefixes.lengths[k] = p.length;
        s.prefixes.highs[k] = p.high;
        s.prefixes.lows[k] = p.low;
    }
    return s;
}

static const u8 *some_address(void) {
    static const u8 pool[][16] = {
        { 0 }, { [15] = 1 }, { 0xff, 2, [11] = 0xff, [12] = 0xfe, [15] = 3 }, { 0x20, 1 }, { 0x20, 1, 1, [15] = 2 }, { 0x20, 2, [15] = 1 },
        { 0x20, 1, 2, 3, 0, 0, 0, 4, [15] = 1 }, { 0x20, 1, 2, 3, 0, 0, 0, 4, 0x80 }, { 0x20, 1, 0, 1, [11] = 0xff, [12] = 0xfe, [15] = 3 },
        { 0xfe, 0x80, [8] = 2, [11] = 0xff, [12] = 0xfe, [15] = 3 },
    };
    return pool[below(6) ? 3 + below(7) : below(10)];
}

static struct packet some_packet(void) {
    static u8 p[1281];
    usize length = ONE_OF(40, 40, 40, 41, 41, 60, 60, 1280, 39, 1281);
    make_packet(p, length < 40 ? 40 : length, 0, 0);
    memcpy(p + 8, some_address(), 16);
    memcpy(p + 24, some_address(), 16);
    if (!below(20)) p[0] = 0x50;
    if (!below(20)) p[5]++;
    return (struct packet){ p, length };
}

static void give_something(enum kind k, struct boxes *x) {
    usize room = ONE_OF(ROOM, ROOM, ROOM, 54, 53);
    x->start = (struct start_values){ some_mid(), ONE_OF(2, 3, 5, 9, 13, 4093, 1, 4094), { 1, 1 }, { 3, 0 } };
    if (!below(3)) x->start.tvl = some_interface();
    x->settings = some_settings();
    x->own = some_mid();
    x->proved.area = (struct perhaps_area){ (u8)below(2), some_area() };
    give_index(x, ONE_OF(0, 1, 2, 3, 4, 5, 6, 9, 13, 14, -1UL));
    x->c.out.room = x->proved.out.room = room;
    struct destination d = { (enum sort)below(3), some_mid(), some_area() };
    u8 right = d.sort == MID ? 1 : d.sort == WITHIN ? (u8)(2 + below(2)) : 4;
    if (k == INDICATION) give_indication(x, below(9) ? right : (u8)below(6), some_mid(), (u8)below(256), d, some_packet());
    if (k == REQUEST) give_request(x, x->c.index, (u8)below(256), below(2), some_mid(), some_address(), some_packet());
}

// A table in 13 records that is started anew now and then. One call in six is lent a run that may be too short; what lies behind it
// is compared too. Every number that the rules name for a call must have been given.
static void compare_calls_at_random(int count) {
    static bool seen[KINDS][31];
    int pairs = 0;
    struct boxes *x = new_boxes();
    x->start = (struct start_values){ 1, 9, { 1, 1 }, { 1, 1 } };
    lend(x, 13);
    compare(START, x, 13);
    for (int i = 0; i < count; i++) {
        enum kind k = (enum kind)(below(100) ? 1 + below(KINDS - 1) : START);
        if (k == DISABLE && below(2)) k = ENABLE;
        give_something(k, x);
        lend(x, below(6) ? 13 : below(14));
        compare(k, x, 13);
        if (x->c.number < 31) seen[k][x->c.number] = true;
    }
    for (int k = 0; k < KINDS; k++)
        for (int n = 0; n < 31; n++) pairs += seen[k][n];
    if (pairs != 4 + 10 + 4 + 3 + 3 + 10 + 11 + 3) wrong++;
    printf("%d calls over a run compared, with %d answers of 48\n", count, pairs);
}

int main(void) {
    static const struct { const char *of; usize records; } sizes[3] = { { "64", 64 }, { "512", 512 }, { "4,092", LARGEST } };
    compare_calls_at_random(1000000);
    print_head("one call over a run");
    for (int i = 0; i < 3; i += 2) {
        struct boxes *x = full_table(sizes[i].records);
        row("start, %s records", sizes[i].of, START, x, 0);
        print_enables(sizes[i].of, sizes[i].records);
        print_indications(sizes[i].of, sizes[i].records);
        print_requests(sizes[i].of, sizes[i].records);
    }
    print_others();
    print_refused();
    print_too_short();
    printf("growth\n");
    for (int i = 0; i < 3; i++) print_growth(sizes[i].of, sizes[i].records);
    printf("calls over a run on which the two sides differ: %d\n", wrong);
    return wrong != 0;
}
