// Days: the proved layer and the C version replay the same day files. The cost of one kind of record is that of a day with many of
// them less that of the day without them.
#include "day.h"
#include "measure.h"

int printf(const char *format, ...);
void *malloc(usize n);

enum { LARGEST = 4000000 };
static const u64 NO_STOP = 1000;
static int wrong;

// Both sides must store as many lines, the same numbers in them, and leave the same buffer behind. All of the numbers and of the
// buffer is compared, also what must stay as it was.
static bool alike(const struct day *d, usize room, usize numbers) {
    static u8 out[2][ROOM];
    static u64 lines[2][NUMBERS];
    memset(out, 0xaa, sizeof out);
    memset(lines, 0x55, sizeof lines);
    usize c = c_whole_day(d->bytes, d->length, out[0], room, lines[0], numbers);
    usize proved = gn6_whole_day(d->bytes, d->length, out[1], room, lines[1], numbers);
    return c == proved && memcmp(lines[0], lines[1], sizeof lines[0]) == 0 && memcmp(out[0], out[1], ROOM) == 0;
}

// A day that is timed must have fewer lines than there is room for.
static bool fits(const struct day *d) {
    static u8 out[ROOM];
    static u64 lines[NUMBERS];
    return c_whole_day(d->bytes, d->length, out, ROOM, lines, NUMBERS) < NUMBERS / 4;
}

static void replay_all(side *replay, const struct day *d, usize times) {
    static u8 out[ROOM];
    static u64 lines[NUMBERS];
    for (usize i = 0; i < times; i++) replay(d->bytes, d->length, out, ROOM, lines, NUMBERS);
}

static void by_c(void *day, usize times) { replay_all(c_whole_day, day, times); }

static void by_proved(void *day, usize times) { replay_all(gn6_whole_day, day, times); }

// What a replay of the day is; both sides have replayed it before it counts, so that it is known to be the same work.
static struct work replay_of(struct day *d) {
    if (!alike(d, ROOM, NUMBERS) || !fits(d)) wrong++;
    return (struct work){ by_c, by_proved, d };
}

static struct cost cost_of(struct day *d) {
    struct work w = replay_of(d);
    struct cost x;
    costs_of(&w, 1, &x);
    return x;
}

static struct day new_day(u64 first, u64 stops) {
    struct day d = { malloc(LARGEST), 0 };
    put_start(&d, 65);
    for (u64 s = first; s < first + stops; s++) put_enable(&d, s, ETHERNET);
    return d;
}

// What is appended to a day many times over: a record, or a few that belong together.
enum kind {
    AREA, OTHERWISE, PREFIX, SOURCE, TSB, REFUSED, SHORT, VERSION, LENGTH_FIELD,
    UNICAST, OLD_UNICAST, MULTICAST, GROUP_TVL, NO_HOP, GROUP_HOP, GIVEN, GIVEN_LOOPBACK,
    FIXED, AGAIN, OWN_MID, DGVL_AREA, RETIRED, IN_AND_OUT
};

// Next hops: one that gives a MID, one that would if it were not multicast, one that gives none, ::1, and ::, which the multicast
// packets have, because there none is asked.
static const u8 mast[16] = { 0xfe, 0x80, [11] = 0xff, [12] = 0xfe, [15] = 3 };
static const u8 group[16] = { 0xff, 0x02, [11] = 0xff, [12] = 0xfe, [15] = 3 };
static const u8 internet[16] = { 0x20, 0x01, 0x0d, 0xb8, [15] = 1 };
static const u8 loopback[16] = { [15] = 1 };
static const u8 unspecified[16];

static void put_work(struct day *d, enum kind w, u64 stop, usize length) {
    static u8 p[1280];
    make_packet(p, length, w == SOURCE ? stop : NO_STOP, w == PREFIX || w == OLD_UNICAST ? stop : NO_STOP);
    if (w == REFUSED) p[8] = 0xff;
    if (w == SHORT) length = 39;
    if (w == VERSION) p[0] = 0x50;
    if (w == LENGTH_FIELD) p[5]++;
    if (w == UNICAST) p[35] = 0; // the far end gives no MID, so that a side which resolves it is noticed
    if (w == MULTICAST || w == GROUP_TVL) p[24] = 0xff;
    switch (w) {
    case AREA: case OTHERWISE: put_indication(d, 3, stop, w == OTHERWISE, p, length); break;
    case PREFIX: case SOURCE: case REFUSED: case SHORT: case VERSION: case LENGTH_FIELD: put_indication(d, 1, 0, false, p, length); break;
    case TSB: put_indication(d, 4, 0, false, p, length); break;
    case UNICAST: put_request(d, stop + 2, 0, mast, p, length); break;
    case GROUP_HOP: put_request(d, stop + 2, 0, group, p, length); break;
    case GIVEN: put_request(d, GIVEN_STOP + 2, 0x020000000005, internet, p, length); break;
    case GIVEN_LOOPBACK: put_request(d, GIVEN_STOP + 2, 0x020000000005, loopback, p, length); break;
    case NO_HOP: case MULTICAST: put_request(d, stop + 2, 0, unspecified, p, length); break;
    case GROUP_TVL: put_request(d, 0, 0, unspecified, p, length); break;
    case OLD_UNICAST: put_old_request(d, stop + 2, p, length); break;
    case FIXED: put(d, 3), put(d, 0); break;
    case AGAIN: put_start(d, 65); break;
    case OWN_MID: put(d, 5), put(d, 0x020000000004); break;
    case DGVL_AREA: put(d, 4), put(d, 0); break;
    case RETIRED: put_enable(d, stop, NBMA); break;
    case IN_AND_OUT: put(d, 3), put(d, stop + 2), put_enable(d, stop, ETHERNET); break;
    }
}

// The cost of one piece of work on a table with some stops enabled.
static struct cost one(enum kind w, u64 stops, u64 stop, usize length) {
    u64 first = stop < ROW ? 0 : ROW;
    struct day without = new_day(first, stops), with = new_day(first, stops);
    struct cost cost[2];
    for (int i = 0; i < MANY; i++) put_work(&with, w, stop, length);
    struct work works[2] = { replay_of(&without), replay_of(&with) };
    costs_of(works, 2, cost);
    struct cost x = { (cost[1].c - cost[0].c) / MANY, (cost[1].proved - cost[0].proved) / MANY };
    return x;
}

// Reading alone: no start stands before the records, so each answers 16.
static struct cost unread(u64 transport, usize length) {
    static u8 p[1280];
    struct day d = { malloc(LARGEST), 0 };
    make_packet(p, length, 0, 0);
    for (int i = 0; i < MANY; i++) put_indication(&d, transport, 0, false, p, length);
    struct cost x = cost_of(&d);
    x.c /= MANY;
    x.proved /= MANY;
    return x;
}

static void print_table_calls(void) {
    struct day d = new_day(0, 64);
    print_row("start and 64 enables (the whole day)", cost_of(&d));
    print_row("disable and enable, the last of 64", one(IN_AND_OUT, 64, 63, 40));
    print_row("enable refused: retired kind", one(RETIRED, 64, 0, 40));
    print_row("own MID, 64 enabled", one(OWN_MID, 64, 0, 40));
    print_row("DGVL area cleared, 64 enabled", one(DGVL_AREA, 64, 0, 40));
}

static void print_indications(void) {
    print_row("indication by area, the first of 64", one(AREA, 64, 0, 40));
    print_row("indication by area, the last of 64", one(AREA, 64, 63, 40));
    print_row("indication by area, none of 64", one(AREA, 64, NO_STOP, 40));
    print_row("by area in other numbers, the last of 64", one(OTHERWISE, 64, 63, 40));
    print_row("by area, the last of 64 on one latitude", one(AREA, 64, ROW + 63, 40));
    print_row("indication by prefix, the first of 64", one(PREFIX, 64, 0, 40));
    print_row("indication by prefix, the last of 64", one(PREFIX, 64, 63, 40));
    print_row("indication by prefix of the source, the last of 64", one(SOURCE, 64, 63, 40));
    print_row("indication by prefix, none of 64", one(PREFIX, 64, NO_STOP, 40));
    print_row("indication for all (TSB)", one(TSB, 64, 0, 40));
    print_row("indication refused: packet short", one(SHORT, 64, 0, 40));
    print_row("indication refused: version", one(VERSION, 64, 0, 40));
    print_row("indication refused: length field", one(LENGTH_FIELD, 64, 0, 40));
    print_row("indication refused: source multicast", one(REFUSED, 64, 0, 40));
}

static void print_requests_and_reading(void) {
    print_row("request, unicast by the next hop's MID, on the last of 64", one(UNICAST, 64, 63, 40));
    print_row("old request (kind 7), unicast on the last of 64", one(OLD_UNICAST, 64, 63, 40));
    print_row("request, unicast to the MID given, on the second of 64", one(GIVEN, 64, GIVEN_STOP, 40));
    print_row("request, multicast on the last of 64", one(MULTICAST, 64, 63, 40));
    print_row("request, multicast on the topological link", one(GROUP_TVL, 64, 0, 40));
    print_row("request refused: no such link, 0 enabled", one(UNICAST, 0, 63, 40));
    print_row("request refused: next hop ::", one(NO_HOP, 64, 63, 40));
    print_row("request refused: next hop multicast", one(GROUP_HOP, 64, 63, 40));
    print_row("request refused: next hop ::1, MID given", one(GIVEN_LOOPBACK, 64, GIVEN_STOP, 40));
    print_row("reading: indication by area before the start (16)", unread(3, 40));
    print_row("reading: indication by prefix before the start (16)", unread(1, 40));
    print_row("reading: second start (16)", one(AGAIN, 64, 0, 40));
    print_row("reading: disable of link 0 (15)", one(FIXED, 64, 0, 40));
}

static void print_growth(void) {
    static const u64 stops[4] = { 0, 1, 16, 64 };
    static const char *by_area[4] = { "by area, none of 0", "by area, none of 1", "by area, none of 16", "by area, none of 64" };
    static const char *by_prefix[4] = { "by prefix, none of 0", "by prefix, none of 1", "by prefix, none of 16", "by prefix, none of 64" };
    for (int i = 0; i < 4; i++) print_row(by_area[i], one(AREA, stops[i], NO_STOP, 40));
    for (int i = 0; i < 4; i++) print_row(by_prefix[i], one(PREFIX, stops[i], NO_STOP, 40));
    print_row("TSB, packet of 40 bytes", one(TSB, 64, 0, 40));
    print_row("TSB, packet of 640 bytes", one(TSB, 64, 0, 640));
    print_row("TSB, packet of 1,280 bytes", one(TSB, 64, 0, 1280));
    print_row("request, packet of 1,280 bytes", one(UNICAST, 64, 63, 1280));
}

// Days with a few bytes changed at random, half of them to a record kind or the number before or behind these: both sides must answer
// alike there too. A fifth of the days get room for a few lines only, and a seventh a buffer that is too short for some of the frames,
// or for all.
static void compare_damaged_days(int count) {
    u64 seed = 1;
    struct day d = new_day(0, 5);
    for (int w = AREA; w <= IN_AND_OUT; w++) put_work(&d, (enum kind)w, (u64)w % 5, 40 + (usize)w);
    struct day e = { malloc(LARGEST), d.length };
    for (int i = 0; i < count; i++) {
        memcpy(e.bytes, d.bytes, d.length);
        for (int k = 0; k < 4; k++) {
            seed = seed * 6364136223846793005UL + 1442695040888963407UL;
            e.bytes[(seed >> 33) % d.length] = (u8)(k % 2 ? seed >> 25 : (seed >> 25) % 10);
        }
        e.length = i % 3 ? d.length : (seed >> 40) % d.length; // a third of them are cut
        if (!alike(&e, i % 7 ? ROOM : (seed >> 45) % 80, i % 5 ? NUMBERS : (seed >> 50) % 80)) wrong++;
    }
    printf("%d damaged days compared\n", count);
}

int main(void) {
    compare_damaged_days(20000);
    print_head("one record");
    print_table_calls();
    print_indications();
    print_requests_and_reading();
    printf("growth\n");
    print_growth();
    printf("days on which the two sides differ: %d\n", wrong);
    return wrong != 0;
}
