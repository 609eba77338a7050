// What a program of Rattle asks of the outside, for a WebAssembly module in a page: its words and streams by four calls of the page,
// a heap, and threads that can't be made. Numbers that are `usize` in Rattle have eight bytes; pointers here have four.
typedef unsigned char u8;
typedef unsigned u32;
typedef unsigned long long u64;
#define OF_PAGE(name) __attribute__((import_module("page"), import_name(#name)))

OF_PAGE(input) u32 page_input(u8 *to, u32 most);
OF_PAGE(output) void page_output(const u8 *from, u32 count);
OF_PAGE(word) int page_word(u32 number, u8 *to, u32 most);
OF_PAGE(leave) _Noreturn void page_leave(u32 status);

extern u32 rattle_main(void);
__attribute__((export_name("run"))) u32 run(void) { return rattle_main(); }

// The heap: a block has 2^kind bytes, of which the first sixteen hold its kind. A block that is free holds the next one of its kind.
enum { HEAD = 16, LEAST_KIND = 5, PAGE = 65536, GREATEST = 0x7fff0000 };
extern u8 __heap_base;
static u8 *spare[32];
static u32 used, had;

static u8 *fresh(u32 size) {
    if (!had) {
        used = ((u32)&__heap_base + HEAD - 1) / HEAD * HEAD;
        had = __builtin_wasm_memory_size(0) * PAGE;
    }
    if (size > 0xffff0000u - used) return 0;
    if (used + size > had) {
        u32 pages = (used + size - had + PAGE - 1) / PAGE;
        if (__builtin_wasm_memory_grow(0, pages) == (unsigned long)-1) return 0;
        had += pages * PAGE;
    }
    used += size;
    return (u8 *)(used - size);
}

void *malloc(u64 size) {
    if (size > GREATEST) return 0;
    u32 kind = LEAST_KIND;
    while (((u64)1 << kind) < size + HEAD) kind++;
    u8 *block = spare[kind];
    if (block)
        spare[kind] = *(u8 **)(block + HEAD);
    else if (!(block = fresh((u32)1 << kind)))
        return 0;
    *(u32 *)block = kind;
    return block + HEAD;
}

void free(void *at) {
    if (!at) return;
    u32 kind = *(u32 *)((u8 *)at - HEAD);
    *(u8 **)at = spare[kind];
    spare[kind] = (u8 *)at - HEAD;
}

struct Room { u64 is_there, at; };

static struct Room room(void *at) { return (struct Room){at != 0, (u32)at}; }

struct Room rattle_alloc(u64 size, u64 align) { return room(malloc(size ? size : align)); }

struct Room rattle_realloc(u8 *old, u64 size, u64 wanted, u64 align) {
    u32 kind = *(u32 *)(old - HEAD);
    if (wanted <= GREATEST && wanted + HEAD <= (u64)1 << kind) return room(old);
    u8 *at = malloc(wanted ? wanted : align);
    if (at) {
        __builtin_memcpy(at, old, (u32)(size < wanted ? size : wanted));
        free(old);
    }
    return room(at);
}

void rattle_dealloc(void *at) { free(at); }

// Words and streams.
static u32 fault;
u32 rattle_errno(void) { return fault; }
void rattle_set_errno(u32 number) { fault = number; }
u64 rattle_arg(u64 number, u8 *to, u64 most) { return (u64)(long long)page_word((u32)number, to, (u32)most); }
u64 rattle_env(u8 *name, u8 *to, u64 most) { return -1; }
u64 rattle_env_at(u64 number, u8 *to, u64 most) { return -1; }
u64 read(u32 stream, u8 *to, u64 most) { return page_input(to, most > GREATEST ? GREATEST : (u32)most); }
u64 write(u32 stream, const u8 *from, u64 count) { return page_output(from, (u32)count), count; }
u64 lseek(u32 stream, u64 to, u32 how) { return fault = 29, -1; }
_Noreturn void _exit(u32 status) { page_leave(status); }
_Noreturn void abort(void) { __builtin_trap(); }
u64 __sysv_signal(u32 signal, u64 how) { return 0; }

// No thread can be made, so a worker works in the calling thread (11 is EAGAIN, 38 ENOSYS).
u32 pthread_create(void *thread, void *how, void *does, void *with) { return 11; }
u32 pthread_attr_init(void *how) { return 0; }
u32 pthread_attr_setguardsize(void *how, u64 size) { return 0; }
u32 pthread_attr_setstacksize(void *how, u64 size) { return 0; }
u32 pthread_attr_destroy(void *how) { return 0; }
u64 pthread_self(void) { return 1; }
u32 pthread_detach(u64 thread) { return 0; }
u32 pthread_join(u64 thread, void *gave) { __builtin_trap(); }
u32 sched_yield(void) { return 0; }
u64 syscall(u64 number, void *a, u64 b, u64 c, void *d, ...) { return fault = 38, -1; }

// The compiler's call for a product of sixteen bytes. (It isn't optimized, or the compiler would call it here too.)
struct Wide { u64 low, high; };
__attribute__((noinline, optnone)) struct Wide __multi3(u64 low, u64 high, u64 by_low, u64 by_high) {
    u64 a = (u32)low, b = low >> 32, c = (u32)by_low, d = by_low >> 32;
    u64 middle = b * c + (a * c >> 32), other = a * d + (u32)middle;
    return (struct Wide){low * by_low, b * d + (middle >> 32) + (other >> 32) + low * by_high + high * by_low};
}
