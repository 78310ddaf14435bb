// Days: the two sides that replay them, and the maker of day files.
#pragma once
#include "plain.h"

// Replays a day; every indication is lent `out`. Each line of the listing is stored in `lines` as four numbers: the reply; 1 if
// the line has a link, else 0; the link's index, or 0 where there is none; the length. It stops where `lines` has no room for four
// more, at the end of the input, or behind a broken record (reply 14, its offset as length). Returns how many lines it stored;
// numbers past these stay as they were.
typedef usize side(const u8 *input, usize length, u8 *out, usize room, u64 *lines, usize numbers);
side c_whole_day;   // day.c
side gn6_whole_day; // crates/whole_day

// What is lent to a side: a buffer of the length that the rules name, and room for more lines than any day here has.
enum { ROOM = 1294, NUMBERS = 4 * 2048 };

// The first of the stops that stand on one latitude.
enum { ROW = 2000 };

// The stop whose requests take the MID that is given.
enum { GIVEN_STOP = 1 };

// A day file as it is made (make.c).
struct day { u8 *bytes; usize length; };

void put(struct day *d, u64 number);
void put_start(struct day *d, u64 max);
enum { ETHERNET = 1, NBMA = 2 }; // kinds of an interface, of which the second is retired
void put_enable(struct day *d, u64 stop, u64 kind);
void put_indication(struct day *d, u64 transport, u64 area, bool otherwise, const u8 *packet, usize length);
void put_request(struct day *d, u64 index, u64 mid, const u8 *hop, const u8 *packet, usize length);
void put_old_request(struct day *d, u64 index, const u8 *packet, usize length); // as before there were next hops
void make_packet(u8 *packet, usize length, u64 from_stop, u64 to_stop);
