// Plain types, because the kit has a C compiler and no C headers.
#pragma once
typedef unsigned char u8;
typedef unsigned short u16;
typedef unsigned int u32;
typedef unsigned long u64;
typedef int i32;
typedef unsigned long usize;
#define bool _Bool
#define true 1
#define false 0

void *memcpy(void *to, const void *from, usize n);
int memcmp(const void *a, const void *b, usize n);
void *memset(void *to, int value, usize n);
