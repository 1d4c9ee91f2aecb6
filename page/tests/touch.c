// Touches memory by loads and stores of each width, by copies, fills, a table of functions and numbers of 128 bits. The same
// sums come out on a machine, in a module with a 64-bit memory, and in that module with a 32-bit one.
typedef unsigned char u8;
typedef unsigned short u16;
typedef unsigned int u32;
typedef unsigned long u64;
typedef signed char i8;
typedef short i16;
typedef int i32;

#ifdef __wasm__
#define EXPORT(name) __attribute__((export_name(name)))
#else
#define EXPORT(name)
#endif

static u8 room[4096], other[4096];
static double floats[8];
static float singles[8];

static u64 mix(u64 sum, u64 value) { return (sum ^ value) * 0x9E3779B97F4A7C15ul + (sum >> 29); }

static u64 bytes(u64 sum) {
    for (u64 i = 0; i < sizeof room; i++) sum = mix(sum, room[i]);
    return sum;
}

static u64 twice(u64 x) { return x * 2; }
static u64 thrice(u64 x) { return x * 3; }
static u64 (*volatile choices[2])(u64) = {twice, thrice};

EXPORT("touch") u64 touch(u64 seed) {
    u64 sum = mix(1, seed);
    volatile u64 step = 8;
    for (u64 i = 0; i < sizeof room; i += step) {
        sum = mix(sum, i);
        *(volatile u64 *)(room + i) = sum;
    }
    for (u64 i = 0; i < 256; i += step) {
        sum = mix(sum, *(volatile u8 *)(room + i + 1));
        sum = mix(sum, *(volatile u16 *)(room + i + 2));
        sum = mix(sum, *(volatile u32 *)(room + i + 4));
        sum = mix(sum, (u64)(long)*(volatile i8 *)(room + i + 3));
        sum = mix(sum, (u64)(long)*(volatile i16 *)(room + i + 6));
        sum = mix(sum, (u64)(long)*(volatile i32 *)(room + i));
        sum = mix(sum, (u32)(i32)*(volatile i8 *)(room + i + 5));
        sum = mix(sum, (u32)(i32)*(volatile i16 *)(room + i + 4));
        *(volatile u8 *)(room + i + 600) = (u8)sum;
        *(volatile u16 *)(room + i + 1600) = (u16)sum;
        *(volatile u32 *)(room + i + 2600) = (u32)(sum >> 7);
    }
    volatile u64 count = 1000 + (seed & 63), from = 100, to = 300;
    __builtin_memcpy(other, room, sizeof other);
    __builtin_memmove(room + to, room + from, count);
    __builtin_memset(room + 3000, (int)(sum & 255), count);
    __builtin_memcpy(room + 2000, other + 5, count);
    sum = bytes(sum);
    for (u64 i = 0; i < 8; i++) {
        *(volatile double *)(floats + i) = (double)(sum >> 40) / (double)(i + 3);
        *(volatile float *)(singles + i) = (float)(sum & 65535) / (float)(i + 7);
        sum = mix(sum, (u64)(*(volatile double *)(floats + i) * 1000.0));
        sum = mix(sum, (u64)(*(volatile float *)(singles + i) * 16.0f));
    }
    unsigned __int128 wide = (unsigned __int128)sum * (seed | 1);
    sum = mix(sum, (u64)(wide >> 64));
    return choices[sum & 1](sum);
}

// How many pages the memory grew by, or -1.
EXPORT("grown") long grown(u64 pages) {
#ifdef __wasm__
    u64 before = __builtin_wasm_memory_size(0);
    if (__builtin_wasm_memory_grow(0, pages) == (u64)-1) return -1;
    return (long)(__builtin_wasm_memory_size(0) - before);
#else
    return (long)pages;
#endif
}
