/* What the proved code asks of a C library, in a module of WebAssembly: memory, bytes in and bytes out, the arguments. */
typedef unsigned long u64; typedef long i64; typedef unsigned char u8;
#define HOST(name) __attribute__((import_module("host"), import_name(name)))
HOST("read") i64 host_read(int fd, u8 *to, u64 n);
HOST("write") i64 host_write(int fd, const u8 *from, u64 n);
HOST("arg") i64 host_arg(u64 i, u8 *to, u64 n);
typedef struct { u64 ok; u8 *p; } Tried;
extern u8 __heap_base;
static u64 top; static int error;
typedef struct Node { struct Node *next; } Node;
static Node *freed[64];
static int class_of(u64 n) { int c = 4; while (((u64)1 << c) < n) c++; return c; }
Tried rattle_alloc(u64 n, u64 a) {
    Tried t = {0, 0}; int c; (void)a;
    if (n > (1ul << 40)) return t;
    c = class_of(n + 16);
    if (freed[c]) { Node *k = freed[c]; freed[c] = k->next; t.ok = 1; t.p = (u8 *)k + 16; return t; }
    if (!top) top = ((u64)&__heap_base + 15) & ~15ul;
    u64 size = 1ul << c, end = top + size, have = (u64)__builtin_wasm_memory_size(0) << 16;
    if (end > have && __builtin_wasm_memory_grow(0, (end - have + 65535) >> 16) == (u64)-1) return t;
    u8 *at = (u8 *)top; top = end; *(u64 *)(at + 8) = c; t.ok = 1; t.p = at + 16; return t;
}
void rattle_dealloc(u8 *p) { u8 *at = p - 16; int c = (int)*(u64 *)(at + 8); Node *k = (Node *)at; k->next = freed[c]; freed[c] = k; }
Tried rattle_realloc(u8 *p, u64 kept, u64 n, u64 a) {
    Tried t = {1, p};
    if (n <= (1ul << 40) && n + 16 <= (1ul << *(u64 *)(p - 8))) return t;
    t = rattle_alloc(n, a);
    if (t.ok) { __builtin_memcpy(t.p, p, kept); rattle_dealloc(p); }
    return t;
}
static unsigned all_features[16] = {~0u,~0u,~0u,~0u,~0u,~0u,~0u,~0u,~0u,~0u,~0u,~0u,~0u,~0u,~0u,~0u};
void *__x86_get_cpuid_feature_leaf(int leaf) { (void)leaf; return all_features; }
i64 __sysv_signal(int s, i64 h) { (void)s; (void)h; return 0; }
i64 read(int fd, u8 *to, u64 n) { return host_read(fd, to, n); }
i64 write(int fd, const u8 *from, u64 n) { return host_write(fd, from, n); }
i64 __write(int fd, const u8 *from, u64 n) { return host_write(fd, from, n); }
i64 rattle_arg(u64 i, u8 *to, u64 n) { return host_arg(i, to, n); }
u64 rattle_arg_count(void) { return (u64)host_arg(~0ul, 0, 0); }
i64 rattle_env_at(u64 i, u8 *to, u64 n) { (void)i; (void)to; (void)n; return -1; }
i64 rattle_env(const u8 *k, u8 *to, u64 n) { (void)k; (void)to; (void)n; return -1; }
int rattle_errno(void) { return error; }
void rattle_set_errno(int e) { error = e; }
int main(void);
int run_main(void) { return main(); }
/* Memory for the caller of the exports: its address, or 0. */
u64 host_alloc(u64 n) { Tried t = rattle_alloc(n, 1); return t.ok ? (u64)t.p : 0; }
void host_free(u64 p) { rattle_dealloc((u8 *)p); }
typedef unsigned __int128 u128;
typedef union { u128 whole; struct { u64 low, high; }; } Halves;
u128 __multi3(u128 x, u128 y) {
    Halves a = {x}, b = {y}, p;
    u64 a0 = a.low & 0xffffffff, a1 = a.low >> 32, b0 = b.low & 0xffffffff, b1 = b.low >> 32;
    u64 first = a0 * b0, second = a1 * b0 + (first >> 32), third = a0 * b1 + (second & 0xffffffff);
    p.low = third << 32 | (first & 0xffffffff);
    p.high = a1 * b1 + (second >> 32) + (third >> 32) + a.low * b.high + a.high * b.low;
    return p.whole;
}
