// What a compiler calls by itself, in a module without a C library: bytes that are copied, set and compared, and 128-bit numbers
// that are multiplied and shifted.
//
// Copying and setting are one instruction of WebAssembly each (bulk memory), which is what the builtins of these functions are
// here.
typedef __SIZE_TYPE__ size_t;
typedef __UINT64_TYPE__ uint64_t;
typedef __INT64_TYPE__ int64_t;
typedef __UINT32_TYPE__ uint32_t;
typedef __UINT8_TYPE__ uint8_t;
typedef __int128 Wide;

// A number of 128 bits by its halves, the lower one first.
typedef union {
    Wide whole;
    struct {
        uint64_t low, high;
    };
} Halves;

void *memcpy(void *restrict to, const void *restrict from, size_t count) { return __builtin_memcpy(to, from, count); }

void *memmove(void *to, const void *from, size_t count) { return __builtin_memmove(to, from, count); }

void *memset(void *to, int byte, size_t count) { return __builtin_memset(to, byte, count); }

int memcmp(const void *left, const void *right, size_t count) {
    const uint8_t *a = left, *b = right;
    for (size_t at = 0; at < count; at++) {
        if (a[at] != b[at]) return a[at] < b[at] ? -1 : 1;
    }
    return 0;
}

int bcmp(const void *left, const void *right, size_t count) { return memcmp(left, right, count); }

// The product of two numbers of 64 bits, by four products of 32.
static Halves product(uint64_t a, uint64_t b) {
    uint64_t a_low = (uint32_t)a, a_high = a >> 32, b_low = (uint32_t)b, b_high = b >> 32;
    uint64_t low = a_low * b_low, one = a_high * b_low, other = a_low * b_high;
    uint64_t middle = (low >> 32) + (uint32_t)one + (uint32_t)other;
    Halves all;
    all.low = middle << 32 | (uint32_t)low;
    all.high = a_high * b_high + (one >> 32) + (other >> 32) + (middle >> 32);
    return all;
}

Wide __multi3(Wide a, Wide b) {
    Halves left = {a}, right = {b}, all = product(left.low, right.low);
    all.high += left.high * right.low + left.low * right.high;
    return all.whole;
}

Wide __ashlti3(Wide number, int by) {
    Halves all = {number};
    if (by & 64) {
        all.high = all.low << (by & 63);
        all.low = 0;
    } else if (by) {
        all.high = all.high << by | all.low >> (64 - by);
        all.low <<= by;
    }
    return all.whole;
}

Wide __lshrti3(Wide number, int by) {
    Halves all = {number};
    if (by & 64) {
        all.low = all.high >> (by & 63);
        all.high = 0;
    } else if (by) {
        all.low = all.low >> by | all.high << (64 - by);
        all.high >>= by;
    }
    return all.whole;
}

Wide __ashrti3(Wide number, int by) {
    Halves all = {number};
    int64_t high = (int64_t)all.high;
    if (by & 64) {
        all.low = (uint64_t)(high >> (by & 63));
        all.high = (uint64_t)(high >> 63);
    } else if (by) {
        all.low = all.low >> by | all.high << (64 - by);
        all.high = (uint64_t)(high >> by);
    }
    return all.whole;
}
