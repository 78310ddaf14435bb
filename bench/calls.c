// The public calls on a table over a run in plain C, by the rules that a day goes by too (rules.h).
#include "calls.h"
#include "rules.h"

enum { MOST = 4093 };

u8 c_start(struct head *t, struct run r, const struct start_values *v) { return start(t, r, MOST, v); }

u8 c_enable(const struct head *t, struct run r, const struct settings *s, usize *link) { return enable(t, r, s, link); }

u8 c_disable(const struct head *t, struct run r, usize index) { return disable(t, r, index); }

u8 c_set_area(struct head *t, struct run r, bool has_area, const struct area *area) { return set_area(t, r, has_area, area); }

u8 c_set_own_mid(struct head *t, struct run r, u64 mid) { return set_own_mid(t, r, mid); }

u8 c_indication(const struct head *t, struct run r, const struct indication *i, struct buffer out, struct reception *got) {
    return indication(t, r, i, out, got);
}

u8 c_request(const struct head *t, struct run r, const struct request *q, struct sending *s) { return request(t, r, q, s); }

// No record of a day is answered by this one.
u8 c_interface_address(const struct head *t, struct run r, usize index, u64 *mid, u8 *address) {
    if (too_short(t->max, r)) return 23;
    if (!is_enabled(t, r, index)) return 7;
    u8 mac[6];
    put_mac(mac, t->own);
    const u8 whole[16] = { 0xfe, 0x80, [8] = mac[0] ^ LOCAL, mac[1], mac[2], 0xff, 0xfe, mac[3], mac[4], mac[5] };
    memcpy(address, whole, 16);
    *mid = t->own;
    return 0;
}
