/* What the C library gives lspcheck on Linux, for WebAssembly with 64-bit addresses: memory, and what passes
   between the program and its host, which has the words, the files and the clock.

   package/wasm compiles it without a C library, and links it with the program. The host is web/module.mjs: each of
   its functions answers a count, or the negative of one of Linux's numbers of errors, and touches no other bytes of
   this module's memory than those that it is given. */

typedef unsigned char byte;
typedef unsigned short u16;
typedef unsigned int u32;
typedef unsigned long u64, size_t;
typedef long ssize_t;
typedef unsigned __int128 u128;
_Static_assert(sizeof(size_t) == 8 && sizeof(void *) == 8, "addresses have 64 bits");

#define HOST(name) __attribute__((import_module("host"), import_name(#name)))
HOST(arg_count) size_t host_arg_count(void);
/* Puts a word at the start of the buffer, and answers its length, -1 if there is none, or -2 if it doesn't fit. */
HOST(arg) ssize_t host_arg(size_t number, byte *buffer, size_t size);
HOST(open) ssize_t host_open(const byte *path, size_t length);
HOST(close) ssize_t host_close(int fd);
HOST(read) ssize_t host_read(int fd, byte *buffer, size_t size);
HOST(write) ssize_t host_write(int fd, const byte *bytes, size_t size);
HOST(size) ssize_t host_size(int fd);  /* the bytes of a file, or 0 where they are not known before it is read */
HOST(is_terminal) int host_is_terminal(int fd);
HOST(clock) ssize_t host_clock(void);  /* the nanoseconds since some moment that stays the same */
HOST(exit) _Noreturn void host_exit(int status);

/* --- Errors: Linux's numbers, and glibc's words ------------------------------------------------------------- */

enum { EIO = 5, ESPIPE = 29, ERANGE = 34, LAST_ERROR = 4095 };
static const struct { int number; const char *words; } errors[] = {
    {1, "Operation not permitted"}, {2, "No such file or directory"}, {4, "Interrupted system call"},
    {5, "Input/output error"}, {6, "No such device or address"}, {9, "Bad file descriptor"},
    {11, "Resource temporarily unavailable"}, {12, "Cannot allocate memory"}, {13, "Permission denied"},
    {16, "Device or resource busy"}, {19, "No such device"}, {20, "Not a directory"}, {21, "Is a directory"},
    {22, "Invalid argument"}, {23, "Too many open files in system"}, {24, "Too many open files"},
    {26, "Text file busy"}, {27, "File too large"}, {28, "No space left on device"}, {29, "Illegal seek"},
    {30, "Read-only file system"}, {32, "Broken pipe"}, {36, "File name too long"},
    {40, "Too many levels of symbolic links"}, {95, "Operation not supported"}, {110, "Connection timed out"},
    {122, "Disk quota exceeded"},
};
static int error;
int rattle_errno(void) { return error; }
void rattle_set_errno(int number) { error = number; }
/* What a call answers, by what the host answered: at most this count, or -1 and an error. */
static ssize_t answered(ssize_t count, size_t most) {
    if (count >= 0 && (size_t)count <= most) return count;
    error = count < 0 && count >= -LAST_ERROR ? (int)-count : EIO;
    return -1;
}

int __xpg_strerror_r(int number, byte *buffer, size_t size) {
    const char *words = "Unknown error";
    size_t at = 0;
    if (size == 0) return ERANGE;
    for (size_t i = 0; i < sizeof errors / sizeof *errors; i++)
        if (errors[i].number == number) words = errors[i].words;
    for (; words[at] && at < size - 1; at++) buffer[at] = (byte)words[at];
    buffer[at] = 0;
    return words[at] ? ERANGE : 0;
}

/* --- Bytes in memory. With -fno-builtin and bulk memory, the first three are instructions ------------------- */

void *memcpy(void *to, const void *from, size_t size) { return __builtin_memcpy(to, from, size); }
void *memmove(void *to, const void *from, size_t size) { return __builtin_memmove(to, from, size); }
void *memset(void *to, int value, size_t size) { return __builtin_memset(to, value, size); }
int memcmp(const void *left, const void *right, size_t size) {
    const byte *a = left, *b = right;
    for (u64 x, y; size >= 8; a += 8, b += 8, size -= 8) {
        __builtin_memcpy(&x, a, 8);
        __builtin_memcpy(&y, b, 8);
        if (x != y) break;
    }
    for (; size; a++, b++, size--)
        if (*a != *b) return *a < *b ? -1 : 1;
    return 0;
}
int bcmp(const void *left, const void *right, size_t size) { return memcmp(left, right, size); }

/* --- Memory: blocks one after the other, and lists of the free ones by their size --------------------------- */

/* A block, and what it lends: the bytes from `next` on. A free one is in a list, and no neighbour is free. */
struct block {
    struct block *before;       /* the block that ends where this one begins, or null */
    size_t size;                /* how many bytes it lends, a multiple of UNIT, and FREE while it is in a list */
    struct block *next, *last;  /* in the list */
};

/* For each power of two there are 16 lists, of the sizes from there to the next power. More than MOST bytes are
   refused, so that no sum of sizes overflows. */
enum { HEAD = 16, UNIT = 16, FREE = 1, POWERS = 48, PARTS = 16, PART_BITS = 4, PAGE_BITS = 16 };
static const size_t MOST = (size_t)1 << 46, PAGE = (size_t)1 << PAGE_BITS;

extern byte __heap_base;
static struct block *lists[POWERS][PARTS], *final;  /* the last is the block at the end of the memory */
static u64 powers;                                  /* a bit for each power that has a block in a list */
static u16 parts[POWERS];                           /* the same for the lists of each */
static byte *end;                                   /* where the blocks end; null before there is one */
static size_t limit = (size_t)1 << 46;
/* The host's bound on the memory, in bytes. What is in use already stays. */
void limit_memory(size_t bytes) { limit = bytes < MOST ? bytes : MOST; }
static size_t size_of(const struct block *block) { return block->size & ~(size_t)FREE; }
static int is_free(const struct block *block) { return block && (block->size & FREE); }
static struct block *after(const struct block *block) {
    byte *at = (byte *)block + HEAD + size_of(block);
    return at < end ? (struct block *)at : 0;
}
/* Which list has the blocks that lend this much: its power, at least 4, and its part. */
static u32 power_of(size_t size) { return 63 - (u32)__builtin_clzl(size); }
static u32 part_of(size_t size, u32 power) { return (u32)(size >> (power - PART_BITS)) & (PARTS - 1); }
static void list(struct block *block) {
    u32 power = power_of(block->size), part = part_of(block->size, power);
    struct block **head = &lists[power][part];
    block->size |= FREE;
    block->last = 0;
    block->next = *head;
    if (*head) (*head)->last = block;
    *head = block;
    powers |= (u64)1 << power;
    parts[power] |= (u16)(1 << part);
}
static void unlist(struct block *block) {
    block->size = size_of(block);
    u32 power = power_of(block->size), part = part_of(block->size, power);
    if (block->next) block->next->last = block->last;
    if (block->last) block->last->next = block->next;
    else lists[power][part] = block->next;
    if (!lists[power][part]) parts[power] &= (u16)~(1 << part);
    if (!parts[power]) powers &= ~((u64)1 << power);
}
/* Makes a block end where the next one does; neither is in a list. */
static void join(struct block *block, struct block *next) {
    block->size += HEAD + next->size;
    next = after(block);
    if (next) next->before = block;
    else final = block;
}

/* Lists a block that is in no list, together with its free neighbours. */
static void release(struct block *block) {
    struct block *before = block->before, *next = after(block);
    if (is_free(next)) { unlist(next); join(block, next); }
    if (is_free(before)) { unlist(before); join(before, block); block = before; }
    list(block);
}

/* Makes a block that is in no list lend this many bytes, and releases the rest where that makes a block. */
static void cut(struct block *block, size_t size) {
    size_t rest = block->size - size;
    if (rest < HEAD + UNIT) return;
    struct block *other = (struct block *)((byte *)block + HEAD + size), *next = after(block);
    block->size = size;
    other->before = block;
    other->size = rest - HEAD;
    if (next) next->before = other;
    else final = other;
    release(other);
}

/* A block out of the lists that lends at least this many bytes, or null: any of the first list of which all do. */
static struct block *taken(size_t size) {
    size_t least = size + ((size_t)1 << (power_of(size) - PART_BITS)) - 1;
    u32 power = power_of(least), found = parts[power] & (0xffffu << part_of(least, power));
    if (!found) {
        u64 larger = powers & ~(((u64)2 << power) - 1);
        if (!larger) return 0;
        power = (u32)__builtin_ctzl(larger);
        found = parts[power];
    }
    struct block *block = lists[power][__builtin_ctz(found)];
    unlist(block);
    return block;
}

/* The block at the end of the memory, in no list, made to lend at least this many bytes: `block` where that is
   given, else the free one there or a new one. Null, and nothing changes, where memory is refused. */
static struct block *extended(struct block *block, size_t size) {
    if (!end) end = (byte *)(((size_t)&__heap_base + UNIT - 1) & ~(size_t)(UNIT - 1));
    if (!block && is_free(final)) block = final;
    size_t had = block ? HEAD + size_of(block) : 0, needed = (size_t)end - had + HEAD + size;
    size_t memory = (size_t)__builtin_wasm_memory_size(0) << PAGE_BITS;
    if (needed > memory) {
        size_t more = (needed - memory + PAGE - 1) & ~(PAGE - 1);
        if (memory + more > limit || __builtin_wasm_memory_grow(0, more >> PAGE_BITS) == (size_t)-1) return 0;
        memory += more;
    }
    if (is_free(block)) unlist(block);
    if (!block) {
        block = (struct block *)end;
        block->before = final;
        final = block;
    }
    block->size = had + (memory - (size_t)end) - HEAD;
    end = (byte *)memory;
    return block;
}

static size_t rounded(size_t size) { return size < UNIT ? UNIT : (size + UNIT - 1) & ~(size_t)(UNIT - 1); }
void *malloc(size_t size) {
    if (size > MOST) return 0;
    struct block *block = taken(rounded(size));
    if (!block) block = extended(0, rounded(size));
    if (!block) return 0;
    cut(block, rounded(size));
    return &block->next;
}
static struct block *block_of(void *bytes) { return (struct block *)((byte *)bytes - HEAD); }
void free(void *bytes) { if (bytes) release(block_of(bytes)); }
/* Where memory is refused, the bytes stay as they are; the block may lend more than before. */
void *realloc(void *bytes, size_t size) {
    if (!bytes) return malloc(size);
    if (size > MOST) return 0;
    size = rounded(size);
    struct block *block = block_of(bytes), *next = after(block);
    if (size > block->size && is_free(next)) { unlist(next); join(block, next); }
    if (size > block->size && block == final) extended(block, size);
    if (size <= block->size) { cut(block, size); return bytes; }
    void *moved = malloc(size);
    if (!moved) return 0;
    __builtin_memcpy(moved, bytes, block->size);
    free(bytes);
    return moved;
}

/* What the kit's C code answers: whether there is memory, and where, or else the address of a byte of nobody. */
struct tried { u64 ok; void *bytes; };
static byte nothing;
static struct tried tried(void *bytes) { return (struct tried){bytes != 0, bytes ? bytes : &nothing}; }
struct tried rattle_alloc(size_t size, size_t align) { return tried(align <= UNIT ? malloc(size) : 0); }
struct tried rattle_realloc(void *bytes, size_t kept, size_t size, size_t align) {
    return tried(align <= UNIT ? realloc(bytes, size) : 0);
}
void rattle_dealloc(void *bytes) { free(bytes); }

/* --- Numbers of 128 bits, whose arithmetic the compiler leaves to functions --------------------------------- */

u128 __multi3(u128 left, u128 right) {
    u64 a = (u64)left, b = (u64)right, a_low = (u32)a, a_high = a >> 32, b_low = (u32)b, b_high = b >> 32;
    u64 low = a_low * b_low, middle = a_high * b_low + (low >> 32), other = a_low * b_high + (u32)middle;
    u64 high = a_high * b_high + (middle >> 32) + (other >> 32) + a * (u64)(right >> 64) + b * (u64)(left >> 64);
    return (u128)high << 64 | other << 32 | (u32)low;
}
u128 __ashlti3(u128 value, int count) {
    u64 low = (u64)value, high = (u64)(value >> 64);
    if (count >= 64) return (u128)(low << (count - 64)) << 64;
    if (count) high = high << count | low >> (64 - count);
    return (u128)high << 64 | low << count;
}
u128 __lshrti3(u128 value, int count) {
    u64 low = (u64)value, high = (u64)(value >> 64);
    if (count >= 64) return high >> (count - 64);
    if (count) low = low >> count | high << (64 - count);
    return (u128)(high >> count) << 64 | low;
}

/* --- Words, files, the clock and the end -------------------------------------------------------------------- */

size_t rattle_arg_count(void) { return host_arg_count(); }
ssize_t rattle_arg(size_t number, byte *buffer, size_t size) {
    ssize_t count = host_arg(number, buffer, size);
    return count >= -2 && count <= (ssize_t)size ? count : -1;
}
int open(const byte *path, int flags, ...) {
    size_t length = 0;
    while (path[length]) length++;
    return (int)answered(host_open(path, length), 0x7fffffff);
}
int close(int fd) { return (int)answered(host_close(fd), 0); }
ssize_t read(int fd, byte *buffer, size_t size) { return answered(host_read(fd, buffer, size), size); }
ssize_t write(int fd, const byte *bytes, size_t size) { return answered(host_write(fd, bytes, size), size); }
ssize_t __write(int fd, const byte *bytes, size_t size) { return write(fd, bytes, size); }
ssize_t rattle_write_no_sigpipe(int fd, const byte *bytes, size_t size) { return write(fd, bytes, size); }
ssize_t lseek(int fd, ssize_t offset, int whence) { error = ESPIPE; return -1; }
int isatty(int fd) { return host_is_terminal(fd) == 1; }

/* The beginning of Linux's statx: only the size of an open file is asked for. */
struct file { u32 mask, block_size; u64 attributes; u32 links, user, group; u16 mode, spare; u64 number, size; };
int statx(int fd, const byte *path, int flags, u32 mask, struct file *found) {
    ssize_t size = answered(host_size(fd), MOST);
    if (size < 0) return -1;
    found->mode = 0100000;
    found->size = (size_t)size;
    return 0;
}
struct time { ssize_t seconds, nanoseconds; };
int clock_gettime(int clock, struct time *time) {
    ssize_t now = host_clock();
    if (now < 0) { error = EIO; return -1; }
    *time = (struct time){now / 1000000000, now % 1000000000};
    return 0;
}
/* What glibc knows of a processor of x86, as far as the program asks before it begins: it has all. */
static const u64 all_features[4] = {-1UL, -1UL, -1UL, -1UL};
const void *__x86_get_cpuid_feature_leaf(u32 leaf) { return all_features; }
u64 __sysv_signal(int number, u64 handler) { return 0; }
_Noreturn void exit(int status) { host_exit(status); }
_Noreturn void _exit(int status) { host_exit(status); }
_Noreturn void abort(void) { host_exit(134); }  /* the status of a shell after SIGABRT */
