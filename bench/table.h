// The types of the rules in plain C. The records of a run lie as the proved layer's do, so that both sides can be lent equal runs.
#pragma once
#include "plain.h"

struct area { u8 shape; i32 latitude, longitude; u16 a, b, angle; };
struct prefix { u8 length; u64 high, low; }; // the first eight bytes and the last eight: two compares instead of a loop
struct interface { u8 kind, flag; };
struct prefixes { u8 count; u8 lengths[4]; u64 highs[4], lows[4]; }; // of one stop, told by sorts of numbers
struct settings { struct area area; struct interface interface; struct prefixes prefixes; };
struct slot { bool enabled; struct settings settings; };
struct head { u64 own; usize max; struct interface tvl, dgvl; bool has_area; struct area area; };
struct run { struct slot *slots; usize records; };
struct start_values { u64 own; usize max; struct interface tvl, dgvl; };
enum sort { NOTHING, MID, WITHIN };
struct destination { enum sort sort; u64 mid; struct area area; };
struct packet { const u8 *bytes; usize length; };
struct buffer { u8 *bytes; usize room; };
struct indication { u8 transport; u64 source; u8 class; struct destination destination; struct packet packet; };
struct reception { usize place, link, length; u64 source; u8 class; }; // of a refusal the place alone
struct request { usize index; u8 class; bool given; u64 neighbour; const u8 *hop; struct packet packet; }; // the next hop is 16 bytes
struct sending { u8 transport, class; struct destination destination; usize length, place; };
