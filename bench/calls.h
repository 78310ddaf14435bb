// The public calls on a table over a run, on both sides.
#pragma once
#include "table.h"

// In plain C (calls.c). Each answers its number. What it gives besides goes where a pointer says; a refusal gives no more than a place.
u8 c_start(struct head *t, struct run r, const struct start_values *v);
u8 c_enable(const struct head *t, struct run r, const struct settings *s, usize *link);
u8 c_disable(const struct head *t, struct run r, usize index);
u8 c_set_area(struct head *t, struct run r, bool has_area, const struct area *area);
u8 c_set_own_mid(struct head *t, struct run r, u64 mid);
u8 c_indication(const struct head *t, struct run r, const struct indication *i, struct buffer out, struct reception *got);
u8 c_request(const struct head *t, struct run r, const struct request *q, struct sending *s);
u8 c_interface_address(const struct head *t, struct run r, usize index, u64 *mid, u8 *address);

// The proved layer (crates/run_table, crates/run_traffic), as its compiler hands values over: a struct and a slice by address, and
// the place of the answer first. An enum is a byte, the number of its variant, and then what the variant holds.
struct perhaps_area { u8 unset; struct area area; };
struct perhaps_link { u8 nothing; usize link; };
struct perhaps_mid { u8 nothing; u64 mid; };
struct proved_head { u64 own; usize max; struct interface tvl, dgvl; struct perhaps_area area; };
struct perhaps_head { u8 nothing; struct proved_head head; };
struct begun { u8 number; struct perhaps_head head; };
struct head_reply { u8 number; struct perhaps_link link; struct proved_head head; };
enum { PROVED_MID, PROVED_WITHIN, PROVED_NOTHING };
union proved_destination { u8 sort; struct { u8 sort_of_mid; u64 mid; }; struct { u8 sort_of_area; struct area area; }; };
struct indication_head { u8 transport; u64 source; u8 class; union proved_destination destination; };
struct request_head { usize index; u8 class; struct perhaps_mid neighbour; };
struct proved_reception { u8 number; usize place; struct perhaps_link link; usize length; u64 source; u8 class; };
struct proved_sending { u8 number; usize place; u8 transport; union proved_destination destination; u8 class; usize length; };
struct interface_address { u8 number; u64 mid; u8 address[16]; };

#define PROVED(name) __asm__(name)
void proved_start(struct begun *, struct run *, const struct start_values *) PROVED("run_table::start");
void proved_enable(struct head_reply *, struct run *, const struct proved_head *, const struct settings *) PROVED("run_table::enable");
void proved_disable(struct head_reply *, struct run *, const struct proved_head *, const usize *) PROVED("run_table::disable");
void proved_set_area(struct head_reply *, struct run *, const struct proved_head *, const struct perhaps_area *)
    PROVED("run_table::set_dgvl_area");
void proved_set_own_mid(struct head_reply *, struct run *, const struct proved_head *, u64) PROVED("run_table::set_own_mid");
void proved_indication(struct proved_reception *, struct run *, const struct proved_head *, const struct indication_head *,
                       const struct packet *, struct buffer *) PROVED("run_traffic::indication");
void proved_request(struct proved_sending *, struct run *, const struct proved_head *, const struct request_head *,
                    const struct packet *, const struct packet *) PROVED("run_traffic::request");
void proved_interface_address(struct interface_address *, struct run *, const struct proved_head *, const usize *)
    PROVED("run_traffic::interface_address");
