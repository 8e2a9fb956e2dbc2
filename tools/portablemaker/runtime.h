/* ---- What the functions of the module stand on: numbers, a memory that grows, loads and stores, and how the program ends if it can't go on.
 * Addresses are numbers below the memory's size; `m` is the memory's first byte. */
#if defined __BYTE_ORDER__ && defined __ORDER_LITTLE_ENDIAN__
#if __BYTE_ORDER__ != __ORDER_LITTLE_ENDIAN__
#error "pmem.c is for little-endian processors"
#endif
#endif
_Static_assert(sizeof(size_t) == 8, "pmem.c is for 64-bit systems");
_Static_assert((-1 >> 1) == -1, "pmem.c needs arithmetic shifts of signed numbers");

/* Compiled with -DPMEM_PART=N, a file has only part N of the functions: so several compilers can work side by side. */
#ifdef PMEM_PART
#if defined __GNUC__ && !defined _WIN32
#define OF_MODULE __attribute__((visibility("hidden")))
#else
#define OF_MODULE
#endif
#else
#define OF_MODULE static
#endif
#ifdef __GNUC__
#define LOCAL static inline __attribute__((unused))
#else
#define LOCAL static inline
#endif

/* The most bytes to which a memory grows by default. They are reserved at once, and a page takes memory once it is written. */
#ifndef PMEM_INSTANCE_BYTES
#ifdef _WIN32
#define PMEM_INSTANCE_BYTES ((u64)1 << 28)
#else
#define PMEM_INSTANCE_BYTES ((u64)1 << 32)
#endif
#endif

enum { PAGE = 65536, HEAD = 4096, RED_ZONE = 128 };

/* What stands before a memory's first byte. */
typedef struct head {
    u64 globals[GLOBALS];
    u64 bytes, most; /* how large the memory is, and how large it may become */
} head;
LOCAL head *head_of(u8 *m) { return (head *)(void *)(m - HEAD); }

/* Ends the program, with a line that says why. */
_Noreturn LOCAL void pmem_trap(const char *why) {
    fprintf(stderr, "pmem: %s\n", why);
    abort();
}

/* The stack grows down to address 0. Small functions that call none may use a few bytes below the stack's pointer. */
LOCAL void check_stack(u64 v) {
    if (v - RED_ZONE > STACK_BYTES - RED_ZONE) pmem_trap("the stack is too deep");
}

/* With -DPMEM_CHECKED each access is checked, as an engine for WebAssembly does. */
#ifdef PMEM_CHECKED
LOCAL void check(u8 *m, u64 at, u64 len) {
    u64 bytes = head_of(m)->bytes;
    if (len > bytes || at > bytes - len) pmem_trap("an access outside of the memory");
}
LOCAL u64 at(u64 base, u64 offset) {
    if (base + offset < base) pmem_trap("an access outside of the memory");
    return base + offset;
}
#else
#define check(m, at, len) ((void)0)
#define at(base, offset) ((base) + (offset))
#endif

LOCAL u32 load8(u8 *m, u64 at) { check(m, at, 1); return m[at]; }
LOCAL u32 load16(u8 *m, u64 at) { u16 v; check(m, at, 2); memcpy(&v, m + at, 2); return v; }
LOCAL u32 load32(u8 *m, u64 at) { u32 v; check(m, at, 4); memcpy(&v, m + at, 4); return v; }
LOCAL u64 load64(u8 *m, u64 at) { u64 v; check(m, at, 8); memcpy(&v, m + at, 8); return v; }
LOCAL void store8(u8 *m, u64 at, u8 v) { check(m, at, 1); m[at] = v; }
LOCAL void store16(u8 *m, u64 at, u16 v) { check(m, at, 2); memcpy(m + at, &v, 2); }
LOCAL void store32(u8 *m, u64 at, u32 v) { check(m, at, 4); memcpy(m + at, &v, 4); }
LOCAL void store64(u8 *m, u64 at, u64 v) { check(m, at, 8); memcpy(m + at, &v, 8); }
LOCAL void copy(u8 *m, u64 to, u64 from, u64 len) { check(m, to, len); check(m, from, len); memmove(m + to, m + from, len); }
LOCAL void fill(u8 *m, u64 to, u32 v, u64 len) { check(m, to, len); memset(m + to, (int)(v & 255), len); }
LOCAL void copy_in(u8 *m, u64 to, u64 len, const char *from) { check(m, to, len); memcpy(m + to, from, len); }

/* Bytes of the caller into the memory, and out of it. */
LOCAL void put_bytes(u8 *m, u64 to, const void *from, size_t len) { check(m, to, len); if (len != 0) memcpy(m + to, from, len); }
LOCAL void take_bytes(u8 *m, void *to, u64 from, size_t len) { check(m, from, len); if (len != 0) memcpy(to, m + from, len); }

LOCAL u64 divisor(u64 b) { if (b == 0) pmem_trap("a division by zero"); return b; }
#define OPERATORS_OF(bits)                                                                                                                 \
    LOCAL u##bits divide##bits(u##bits a, u##bits b) { return a / (u##bits)divisor(b); }                                                  \
    LOCAL u##bits remainder##bits(u##bits a, u##bits b) { return a % (u##bits)divisor(b); }                                               \
    LOCAL u##bits divide_signed##bits(u##bits a, u##bits b) {                                                                             \
        if (b == (u##bits)-1 && a == (u##bits)1 << (bits - 1)) pmem_trap("a quotient that is too large");                                  \
        return (u##bits)((i##bits)a / (i##bits)divisor(b));                                                                                \
    }                                                                                                                                      \
    LOCAL u##bits remainder_signed##bits(u##bits a, u##bits b) {                                                                          \
        return b == (u##bits)-1 ? 0 : (u##bits)((i##bits)a % (i##bits)divisor(b));                                                         \
    }                                                                                                                                      \
    LOCAL u##bits rotate_left##bits(u##bits a, u##bits b) { b &= bits - 1; return a << b | a >> (-b & (bits - 1)); }                      \
    LOCAL u##bits rotate_right##bits(u##bits a, u##bits b) { b &= bits - 1; return a >> b | a << (-b & (bits - 1)); }
OPERATORS_OF(32)
OPERATORS_OF(64)

/* How many bits are set; how many zeros stand before the first bit that is set, and behind the last one. */
#ifdef __GNUC__
#define BITS_OF(bits, ones_, leading_, trailing_)                                                                                          \
    LOCAL u##bits ones##bits(u##bits a) { return (u##bits)ones_(a); }                                                                     \
    LOCAL u##bits leading_zeros##bits(u##bits a) { return a == 0 ? bits : (u##bits)leading_(a); }                                         \
    LOCAL u##bits trailing_zeros##bits(u##bits a) { return a == 0 ? bits : (u##bits)trailing_(a); }
BITS_OF(32, __builtin_popcount, __builtin_clz, __builtin_ctz)
BITS_OF(64, __builtin_popcountll, __builtin_clzll, __builtin_ctzll)
#else
#define BITS_OF(bits)                                                                                                                      \
    LOCAL u##bits ones##bits(u##bits a) { u##bits n = 0; for (; a != 0; a &= a - 1) n++; return n; }                                      \
    LOCAL u##bits leading_zeros##bits(u##bits a) { u##bits n = bits; for (; a != 0; a >>= 1) n--; return n; }                             \
    LOCAL u##bits trailing_zeros##bits(u##bits a) { return a == 0 ? bits : ones##bits((a & (~a + 1)) - 1); }
BITS_OF(32)
BITS_OF(64)
#endif

LOCAL u64 pages_of(u8 *m) { return head_of(m)->bytes / PAGE; }

/* Grows the memory in its place by some pages. Gives how many there were, or -1 if there is no room. */
LOCAL u64 grown(u8 *m, u64 pages) {
    head *its = head_of(m);
    u64 had = its->bytes;
    if (pages > (its->most - had) / PAGE) return ~(u64)0;
    its->bytes = had + pages * PAGE;
    return had / PAGE;
}

/* A memory of zeros that can grow to `most` bytes, or to fewer if the system reserves no more; NULL if there is no memory. */
LOCAL u8 *empty_instance(u64 most, u64 bytes) {
    for (most = most < bytes ? bytes : most; most >= bytes; most /= 2) {
        u8 *block = (u8 *)calloc(1, HEAD + most);
        if (block == NULL) continue;
        head_of(block + HEAD)->bytes = bytes;
        head_of(block + HEAD)->most = most;
        return block + HEAD;
    }
    return NULL;
}
LOCAL void drop_instance(u8 *m) { free(m - HEAD); }
LOCAL u64 instance_bytes(u8 *m) { return head_of(m)->bytes; }
