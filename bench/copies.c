// Counts the copies of a table that a task makes: the C library's memcpy and memmove are replaced by ones that count the calls for
// 2 KiB or more. A table is longer than that, and nothing else that is copied is as long. memset is replaced with them and counts
// nothing: to fill a table is no copy.
#include "measure.h"

static u64 copies;

void *memcpy(void *to, const void *from, usize n) {
    if (n >= 2048) copies++;
    for (usize i = 0; i < n; i++) ((volatile u8 *)to)[i] = ((const u8 *)from)[i];
    return to;
}

void *memmove(void *to, const void *from, usize n) {
    if ((usize)to <= (usize)from) return memcpy(to, from, n);
    if (n >= 2048) copies++;
    while (n-- > 0) ((volatile u8 *)to)[n] = ((const u8 *)from)[n];
    return to;
}

void *memset(void *to, int value, usize n) {
    for (usize i = 0; i < n; i++) ((volatile u8 *)to)[i] = (u8)value;
    return to;
}

u64 count_of(task *t, void *what) {
    copies = 0;
    t(what, 1);
    return copies;
}
