// The rules (docs/RULES.md) in plain C, once for both layouts: the table is a head and an array of records, each behind a pointer,
// packets are read where they lie, and a frame goes into a lent buffer. It is what the proved layer is compared with. Where the
// proved layer found a faster way that C can go too, it goes it (prefixes as words, latitudes first), so that the ratio is the price
// of the proofs and not of an older idea. day.c puts a table by value and the day file around it, calls.c lends it a run.
#include "table.h"

// ---- settings

static bool mid_ok(u64 mid) { return mid < 1UL << 48; }

static bool interface_ok(struct interface f) { return f.kind >= 1 && f.kind <= 3 && f.flag <= 1; }

static bool retired(struct interface f) { return f.kind == 2; }

static bool area_good(const struct area *x) {
    return x->shape <= 2 && x->latitude >= -900000000 && x->latitude <= 900000000 && x->longitude >= -1800000000
        && x->longitude <= 1800000000 && x->angle <= 359 && x->a >= 1 && (x->shape == 0 || x->b >= 1);
}

static i32 longitude_normal(i32 longitude) { return longitude == 1800000000 ? -1800000000 : longitude; }

static struct area area_normal(const struct area *x) {
    struct area n = *x;
    n.longitude = longitude_normal(x->longitude);
    if (x->shape == 0 || (x->shape == 2 && x->a == x->b)) {
        n.shape = 0;
        n.b = n.angle = 0;
    } else if (x->a == x->b) {
        n.angle = x->angle % 90;
    } else if (x->a < x->b) {
        n.angle = x->angle % 180;
    } else {
        n.a = x->b;
        n.b = x->a;
        n.angle = (u16)((x->angle + 90) % 180);
    }
    return n;
}

// The centre first: stops seldom share a latitude, so most slots are passed at the first compare, and few areas are made normal.
static bool has_normal(const struct area *x, const struct area *n) {
    if (x->latitude != n->latitude || longitude_normal(x->longitude) != n->longitude) return false;
    struct area m = area_normal(x);
    return m.shape == n->shape && m.a == n->a && m.b == n->b && m.angle == n->angle;
}

// Eight bytes as one number, the first byte highest: one load, turned round, because the processors meant here have the lowest
// byte first. Built from eight bytes by shifts it made the search slower: the compiler took the loads into the loop.
static u64 word(const u8 *bytes) {
    u64 w;
    memcpy(&w, bytes, 8);
    return __builtin_bswap64(w);
}

// An address as the prefix that holds it alone.
static struct prefix address_at(const u8 *bytes) { return (struct prefix){ 128, word(bytes), word(bytes + 8) }; }

// Whether the first n bits are the same; n is 1 to 128, as a word can't be shifted by 64. Most prefixes have up to 64 bits: without being
// told so, the compiler made loops with three jumps for each record in place of one.
static bool same_bits(const struct prefix *p, const struct prefix *q, u8 n) {
    if (__builtin_expect(n <= 64, 1)) return (p->high ^ q->high) >> (64 - n) == 0;
    return p->high == q->high && (p->low ^ q->low) >> (128 - n) == 0;
}

static bool holds(const struct prefix *p, const struct prefix *address) {
    return p->length > 0 && same_bits(p, address, p->length);
}

static bool overlaps(const struct prefix *p, const struct prefix *q) {
    if (p->length == 0 || q->length == 0) return false;
    return same_bits(p, q, p->length < q->length ? p->length : q->length);
}

// The bits of a word that lie behind its first n.
static u64 behind(u8 n) { return n >= 64 ? 0 : ~0UL >> n; }

static bool prefix_good(const struct prefix *p) {
    static const struct prefix link_local = { 10, 0xfe80000000000000, 0 };
    static const struct prefix multicast = { 8, 0xff00000000000000, 0 };
    if (p->length > 128) return false;
    if (p->high & behind(p->length) || p->low & behind(p->length < 64 ? 0 : p->length - 64)) return false;
    return !overlaps(p, &link_local) && !overlaps(p, &multicast);
}

// ---- the prefixes of one stop

enum { MOST_PREFIXES = 4 };

static struct prefix prefix_at(const struct prefixes *s, usize k) { return (struct prefix){ s->lengths[k], s->highs[k], s->lows[k] }; }

static bool prefixes_good(const struct prefixes *s) {
    for (usize k = 0; k < s->count; k++) {
        struct prefix p = prefix_at(s, k);
        if (p.length == 0 || !prefix_good(&p)) return false;
    }
    return true;
}

static bool any_holds(const struct prefixes *s, const struct prefix *address) {
    for (usize k = 0; k < s->count; k++) {
        struct prefix p = prefix_at(s, k);
        if (holds(&p, address)) return true;
    }
    return false;
}

// Whether a prefix of the first, from a place on, overlaps this one.
static bool any_overlaps(const struct prefixes *s, usize from, const struct prefix *q) {
    for (usize k = from; k < s->count; k++) {
        struct prefix p = prefix_at(s, k);
        if (overlaps(&p, q)) return true;
    }
    return false;
}

static bool two_overlap(const struct prefixes *s, const struct prefixes *given) {
    for (usize k = 0; k < given->count; k++) {
        struct prefix p = prefix_at(given, k);
        if (any_overlaps(s, 0, &p)) return true;
    }
    return false;
}

static bool overlap_within(const struct prefixes *s) {
    for (usize k = 0; k < s->count; k++) {
        struct prefix p = prefix_at(s, k);
        if (any_overlaps(s, k + 1, &p)) return true;
    }
    return false;
}

// A table keeps nothing in the places past the count.
static void keep(struct prefixes *to, const struct prefixes *s) {
    *to = (struct prefixes){ .count = s->count };
    for (usize k = 0; k < s->count; k++) {
        to->lengths[k] = s->lengths[k];
        to->highs[k] = s->highs[k];
        to->lows[k] = s->lows[k];
    }
}

// ---- the table

static bool too_short(usize max, struct run r) { return r.records < max - 1; }

static u8 start(struct head *t, struct run r, usize most, const struct start_values *v) {
    if (!mid_ok(v->own) || v->max < 2 || v->max > most || !interface_ok(v->tvl) || !interface_ok(v->dgvl)) return 1;
    if (retired(v->tvl) || retired(v->dgvl)) return 30;
    if (too_short(v->max, r)) return 23;
    memset(r.slots, 0, (v->max - 1) * sizeof *r.slots);
    *t = (struct head){ v->own, v->max, v->tvl, v->dgvl };
    return 0;
}

static u8 enable(const struct head *t, struct run r, const struct settings *s, usize *link) {
    if (!interface_ok(s->interface)) return 1;
    if (retired(s->interface)) return 30;
    if (too_short(t->max, r)) return 23;
    if (!area_good(&s->area)) return 2;
    if (s->prefixes.count > MOST_PREFIXES) return 29;
    if (!prefixes_good(&s->prefixes)) return 3;
    struct area ground = area_normal(&s->area);
    usize stops = t->max - 1, unused = stops;
    bool overlap = overlap_within(&s->prefixes);
    for (usize k = 0; k < stops; k++) {
        const struct slot *x = &r.slots[k];
        if (!x->enabled) {
            if (unused == stops) unused = k;
            continue;
        }
        if (has_normal(&x->settings.area, &ground)) return 4;
        if (two_overlap(&x->settings.prefixes, &s->prefixes)) overlap = true;
    }
    if (overlap) return 5;
    if (unused == stops) return 6;
    r.slots[unused].enabled = true;
    r.slots[unused].settings.area = s->area;
    r.slots[unused].settings.interface = s->interface;
    keep(&r.slots[unused].settings.prefixes, &s->prefixes);
    *link = unused + 2;
    return 0;
}

static bool is_enabled(const struct head *t, struct run r, usize index) {
    return index < 2 || (index <= t->max && r.slots[index - 2].enabled);
}

static u8 disable(const struct head *t, struct run r, usize index) {
    if (too_short(t->max, r)) return 23;
    if (index < 2) return 15;
    if (!is_enabled(t, r, index)) return 7;
    memset(&r.slots[index - 2], 0, sizeof *r.slots);
    return 0;
}

static u8 set_area(struct head *t, struct run r, bool has_area, const struct area *area) {
    if (too_short(t->max, r)) return 23;
    if (has_area && !area_good(area)) return 2;
    t->has_area = has_area;
    if (has_area) t->area = *area;
    return 0;
}

static u8 set_own_mid(struct head *t, struct run r, u64 mid) {
    if (!mid_ok(mid)) return 1;
    if (too_short(t->max, r)) return 23;
    t->own = mid;
    return 0;
}

static struct interface interface_at(const struct head *t, struct run r, usize index) {
    if (index == 0) return t->tvl;
    if (index == 1) return t->dgvl;
    return r.slots[index - 2].settings.interface;
}

// ---- packets

static const u8 loopback[16] = { [15] = 1 };
static const u8 unspecified[16];

// :: or ::1, at which no other box is: neither a packet's destination nor a next hop.
static bool nowhere(const u8 *address) {
    return memcmp(address, unspecified, 16) == 0 || memcmp(address, loopback, 16) == 0;
}

static u8 packet_refusal(struct packet p) {
    if (p.length > 1280) return 9;
    if (p.length < 40) return 20;
    if (p.bytes[0] >> 4 != 6) return 21;
    if ((usize)(p.bytes[4] << 8 | p.bytes[5]) + 40 != p.length) return 22;
    const u8 *from = p.bytes + 8, *to = p.bytes + 24;
    if (from[0] == 0xff || memcmp(from, loopback, 16) == 0) return 10;
    return nowhere(to) ? 10 : 0;
}

static usize fault_place(u8 refusal, struct packet p) {
    if (refusal == 20) return p.length;
    return refusal == 22 ? 4 : 0;
}

static void put_mac(u8 *out, u64 mid) {
    for (int i = 0; i < 6; i++) out[i] = mid >> (40 - 8 * i);
}

static usize write_frame(u8 *out, u64 to, u64 from, struct packet p) {
    put_mac(out, to);
    put_mac(out + 6, from);
    out[12] = 0x86;
    out[13] = 0xdd;
    memcpy(out + 14, p.bytes, p.length);
    return p.length + 14;
}

// ---- what arrives

static usize stop_with_area(const struct head *t, struct run r, const struct area *a) {
    struct area ground = area_normal(a);
    for (usize k = 0; k < t->max - 1; k++)
        if (r.slots[k].enabled && has_normal(&r.slots[k].settings.area, &ground)) return k + 2;
    return 1;
}

static usize stop_that_holds(const struct head *t, struct run r, const u8 *bytes) {
    struct prefix address = address_at(bytes);
    for (usize k = 0; k < t->max - 1; k++)
        if (r.slots[k].enabled && any_holds(&r.slots[k].settings.prefixes, &address)) return k + 2;
    return 1;
}

static usize choose(const struct head *t, struct run r, const struct indication *i) {
    if (i->transport == 4) return 0;
    if (i->transport != 1) return stop_with_area(t, r, &i->destination.area);
    usize link = stop_that_holds(t, r, i->packet.bytes + 24);
    return link != 1 ? link : stop_that_holds(t, r, i->packet.bytes + 8);
}

static bool fits(const struct destination *d, u8 transport) {
    if (d->sort == MID) return transport == 1 && mid_ok(d->mid);
    if (d->sort == WITHIN) return transport == 2 || transport == 3;
    return transport == 4;
}

static u8 indication(const struct head *t, struct run r, const struct indication *i, struct buffer out, struct reception *got) {
    const struct destination *d = &i->destination;
    struct packet p = i->packet;
    got->place = 0;
    if (!mid_ok(i->source) || !fits(d, i->transport)) return 1;
    if (too_short(t->max, r)) return 23;
    if (d->sort == WITHIN && !area_good(&d->area)) return 2;
    u8 bad = packet_refusal(p);
    got->place = fault_place(bad, p);
    if (bad) return bad;
    if (out.room < p.length + 14) return 13;
    got->link = choose(t, r, i);
    got->source = i->source;
    got->class = i->class;
    if (interface_at(t, r, got->link).kind == 1) {
        got->length = write_frame(out.bytes, d->sort == MID ? d->mid : (1UL << 48) - 1, i->source, p);
    } else {
        memcpy(out.bytes, p.bytes, p.length);
        got->length = p.length;
    }
    return 0;
}

// ---- what leaves

// The bit by which the first byte of a MID and that of the identifier built from it differ.
enum { LOCAL = 2 };

static bool mid_of(const u8 *address, u64 *mid) {
    if (address[11] != 0xff || address[12] != 0xfe) return false;
    const u8 mac[6] = { address[8] ^ LOCAL, address[9], address[10], address[13], address[14], address[15] };
    *mid = 0;
    for (int i = 0; i < 6; i++) *mid = *mid << 8 | mac[i];
    return true;
}

// The MID to which a unicast packet goes first. A given one does not help where the next hop can't be a neighbour's: the caller
// then has no neighbour to name.
static bool neighbour_mid(const struct request *q, struct interface f, u64 *mid) {
    if (q->hop[0] == 0xff || nowhere(q->hop)) return false;
    if (f.kind == 3 || f.flag == 1) return mid_of(q->hop, mid);
    *mid = q->neighbour;
    return q->given;
}

static u8 multicast_out(const struct head *t, struct run r, usize index, struct sending *s) {
    if (index == 1 && !t->has_area) return 11;
    s->transport = index == 0 ? 4 : 3;
    s->destination.sort = index == 0 ? NOTHING : WITHIN;
    if (index != 0) s->destination.area = index == 1 ? t->area : r.slots[index - 2].settings.area;
    return 0;
}

static u8 unicast_out(const struct head *t, struct run r, const struct request *q, struct sending *s) {
    if (!neighbour_mid(q, interface_at(t, r, q->index), &s->destination.mid)) return 12;
    s->transport = 1;
    s->destination.sort = MID;
    return 0;
}

static u8 request(const struct head *t, struct run r, const struct request *q, struct sending *s) {
    s->place = 0;
    if (q->given && !mid_ok(q->neighbour)) return 1;
    if (too_short(t->max, r)) return 23;
    if (!is_enabled(t, r, q->index)) return 7;
    u8 bad = packet_refusal(q->packet);
    s->place = fault_place(bad, q->packet);
    if (bad) return bad;
    s->class = q->class;
    s->length = q->packet.length;
    return q->packet.bytes[24] == 0xff ? multicast_out(t, r, q->index, s) : unicast_out(t, r, q, s);
}
