/* The board of `docs/BOARD.md` in C, one step of it, and a program around it, to measure rvmove against. Each of
 * the two programs that include this file says how turns are made.
 *
 *   PROGRAM run IMAGE [--raw] [--harts N] [--pages N] [--steps N] [--input FILE] [--count]
 *
 * --count (not the product's) prints the number of turns on standard error.
 */
#include <stdint.h>
#include <stdio.h>
#include <stdlib.h>
#include <string.h>

#define RAM_BASE 0x80000000u
#define MAX_HARTS 8

typedef uint32_t u32;
typedef int32_t s32;
typedef uint64_t u64;
typedef int64_t s64;

struct hart {
    u32 x[32];
    u32 pc;
    u32 mstatus, mie, mtvec, mscratch, mepc, mcause, mtval;
    u64 mcycle, minstret, mtimecmp;
    u32 msip;
    int reserved;
    u32 res_addr;
};

static struct hart harts[MAX_HARTS];
static u32 nharts = 1;
static uint8_t *ram;
static u32 ram_len;
static u64 mtime;
static u32 n_reserved;                  /* how many harts hold a reservation */
static uint8_t *in_bytes;
static size_t in_len, in_at;
static u32 turn_of;                     /* the hart whose turn is next */
static int halted;
static u32 halt_status;
static uint8_t inq[16];
static u32 in_first, in_count;
static uint8_t outq[4096];
static u32 out_first, out_count;
static u32 overrun, int_enable;

/* what the instruction wrote, so that it isn't ticked in the same step */
enum { W_MTIME = 1, W_CYCLE = 2, W_INSTRET = 4 };
static int wrote;

static inline u32 get32(u32 off)
{
    u32 v;
    memcpy(&v, ram + off, 4);           /* the host is little-endian */
    return v;
}
static inline void set32(u32 off, u32 v) { memcpy(ram + off, &v, 4); }

/* ---- devices: aligned words only; 0 = no such register ---- */
static int dev_load(u32 addr, u32 *v)
{
    if (addr == 0x00100000u) { *v = 0; return 1; }
    if (addr >= 0x02000000u && addr < 0x02000000u + 4 * nharts) {
        *v = harts[(addr - 0x02000000u) / 4].msip;
        return 1;
    }
    if (addr >= 0x02004000u && addr < 0x02004000u + 8 * nharts) {
        u64 c = harts[(addr - 0x02004000u) / 8].mtimecmp;
        *v = (u32)(addr & 4 ? c >> 32 : c);
        return 1;
    }
    switch (addr) {
    case 0x0200BFF8u: *v = (u32)mtime; return 1;
    case 0x0200BFFCu: *v = (u32)(mtime >> 32); return 1;
    case 0x10000000u: *v = 0; return 1;
    case 0x10000004u:
        if (in_count == 0) {
            *v = 0xFFFFFFFFu;
        } else {
            *v = inq[in_first];
            in_first = (in_first + 1) % 16;
            in_count--;
        }
        return 1;
    case 0x10000008u:
        *v = (in_count > 0) | (out_count < sizeof outq) << 1 | overrun << 2;
        return 1;
    case 0x1000000Cu: *v = int_enable; return 1;
    }
    return 0;
}

static int dev_store(u32 addr, u32 v)
{
    if (addr == 0x00100000u) {
        halted = 1;
        halt_status = v & 255;
        return 1;
    }
    if (addr >= 0x02000000u && addr < 0x02000000u + 4 * nharts) {
        harts[(addr - 0x02000000u) / 4].msip = v & 1;
        return 1;
    }
    if (addr >= 0x02004000u && addr < 0x02004000u + 8 * nharts) {
        u64 *c = &harts[(addr - 0x02004000u) / 8].mtimecmp;
        *c = addr & 4 ? (*c & 0xFFFFFFFFu) | (u64)v << 32
                      : (*c & ~(u64)0xFFFFFFFFu) | v;
        return 1;
    }
    switch (addr) {
    case 0x0200BFF8u:
        mtime = (mtime & ~(u64)0xFFFFFFFFu) | v;
        wrote |= W_MTIME;
        return 1;
    case 0x0200BFFCu:
        mtime = (mtime & 0xFFFFFFFFu) | (u64)v << 32;
        wrote |= W_MTIME;
        return 1;
    case 0x10000000u:
        if (out_count < sizeof outq) {
            outq[(out_first + out_count) % sizeof outq] = (uint8_t)v;
            out_count++;
        } else {
            overrun = 1;
        }
        return 1;
    case 0x10000004u: return 1;
    case 0x10000008u: if (v & 4) overrun = 0; return 1;
    case 0x1000000Cu: int_enable = v & 1; return 1;
    }
    return 0;
}

/* ---- CSRs ---- */
static inline u32 mip_of(u32 h)
{
    u32 mip = harts[h].msip << 3;
    if (mtime >= harts[h].mtimecmp) mip |= 1u << 7;
    if (h == 0 && int_enable && in_count > 0) mip |= 1u << 11;
    return mip;
}

static int csr_load(u32 h, u32 no, u32 *v)
{
    struct hart *p = &harts[h];
    switch (no) {
    case 0x300: *v = p->mstatus | 0x1800; return 1;
    case 0x301: *v = 0x40001101u; return 1;
    case 0x304: *v = p->mie; return 1;
    case 0x305: *v = p->mtvec; return 1;
    case 0x340: *v = p->mscratch; return 1;
    case 0x341: *v = p->mepc; return 1;
    case 0x342: *v = p->mcause; return 1;
    case 0x343: *v = p->mtval; return 1;
    case 0x344: *v = mip_of(h); return 1;
    case 0xB00: *v = (u32)p->mcycle; return 1;
    case 0xB80: *v = (u32)(p->mcycle >> 32); return 1;
    case 0xB02: *v = (u32)p->minstret; return 1;
    case 0xB82: *v = (u32)(p->minstret >> 32); return 1;
    case 0xF14: *v = h; return 1;
    case 0x310: case 0x320:
    case 0xF11: case 0xF12: case 0xF13: case 0xF15: *v = 0; return 1;
    }
    if ((no >= 0x323 && no <= 0x33F) || (no >= 0xB03 && no <= 0xB1F) ||
        (no >= 0xB83 && no <= 0xB9F)) {
        *v = 0;
        return 1;
    }
    return 0;
}

static void csr_store(u32 h, u32 no, u32 v)
{
    struct hart *p = &harts[h];
    const u64 lo = 0xFFFFFFFFu;
    switch (no) {
    case 0x300: p->mstatus = v & 0x88; break;
    case 0x304: p->mie = v & 0x888; break;
    case 0x305: p->mtvec = v & ~2u; break;
    case 0x340: p->mscratch = v; break;
    case 0x341: p->mepc = v & ~3u; break;
    case 0x342: p->mcause = v; break;
    case 0x343: p->mtval = v; break;
    case 0xB00: p->mcycle = (p->mcycle & ~lo) | v; wrote |= W_CYCLE; break;
    case 0xB80: p->mcycle = (p->mcycle & lo) | (u64)v << 32; wrote |= W_CYCLE; break;
    case 0xB02: p->minstret = (p->minstret & ~lo) | v; wrote |= W_INSTRET; break;
    case 0xB82: p->minstret = (p->minstret & lo) | (u64)v << 32; wrote |= W_INSTRET; break;
    }
}

/* ---- reservations: a store of hart h into a word ends the others' ---- */
static inline void res_stored(u32 h, u32 addr)
{
    if (n_reserved == 0) return;
    for (u32 i = 0; i < nharts; i++) {
        if (i != h && harts[i].reserved && harts[i].res_addr == (addr & ~3u)) {
            harts[i].reserved = 0;
            n_reserved--;
        }
    }
}

/* One step of hart h, which is *p.  Out of line, because gcc 12 spills more
 * when it is merged into main's loop. */
static __attribute__((noinline)) void step(struct hart *p, u32 h)
{
    u32 *x = p->x;
    u32 pc = p->pc, next = pc + 4;
    u32 trap, tval = 0;

    if ((p->mstatus & 8) && p->mie != 0) {
        u32 pend = mip_of(h) & p->mie;
        if (pend != 0) {
            trap = 0x80000000u | (pend & 0x800 ? 11 : pend & 8 ? 3 : 7);
            goto take;
        }
    }

    u32 off = pc - RAM_BASE;
    if (off >= ram_len) {
        trap = 1; tval = pc;
        goto take;
    }
    u32 ir = get32(off);
    u32 rd = ir >> 7 & 31, f3 = ir >> 12 & 7;
    u32 val = 0;
#define RS1 (ir >> 15 & 31)
#define RS2 (ir >> 20 & 31)

    switch (ir & 0x7f) {
    case 0x37: val = ir & 0xFFFFF000u; break;                   /* lui */
    case 0x17: val = pc + (ir & 0xFFFFF000u); break;            /* auipc */
    case 0x6F: {                                                /* jal */
        u32 i = (u32)((s32)ir >> 11 & (s32)0xFFF00000) | (ir & 0xFF000) |
                (ir >> 9 & 0x800) | (ir >> 20 & 0x7FE);
        u32 t = pc + i;
        if (t & 3) { trap = 0; tval = t; goto take; }
        val = next;
        next = t;
        break;
    }
    case 0x67: {                                                /* jalr */
        if (f3 != 0) goto illegal;
        u32 t = (x[RS1] + (u32)((s32)ir >> 20)) & ~1u;
        if (t & 3) { trap = 0; tval = t; goto take; }
        val = next;
        next = t;
        break;
    }
    case 0x63: {                                                /* branches */
        u32 a = x[RS1], b = x[RS2];
        int yes;
        switch (f3) {
        case 0: yes = a == b; break;
        case 1: yes = a != b; break;
        case 4: yes = (s32)a < (s32)b; break;
        case 5: yes = (s32)a >= (s32)b; break;
        case 6: yes = a < b; break;
        case 7: yes = a >= b; break;
        default: goto illegal;
        }
        if (yes) {
            u32 i = (u32)((s32)ir >> 19 & (s32)0xFFFFF000) | (ir << 4 & 0x800) |
                    (ir >> 20 & 0x7E0) | (ir >> 7 & 0x1E);
            u32 t = pc + i;
            if (t & 3) { trap = 0; tval = t; goto take; }
            next = t;
        }
        rd = 0;
        break;
    }
    case 0x03: {                                                /* loads */
        u32 a = x[RS1] + (u32)((s32)ir >> 20);
        u32 o = a - RAM_BASE;
        switch (f3) {
        case 0: case 4:
            if (o >= ram_len) { trap = 5; tval = a; goto take; }
            val = f3 == 0 ? (u32)(s32)(int8_t)ram[o] : ram[o];
            break;
        case 1: case 5: {
            if (a & 1) { trap = 4; tval = a; goto take; }
            if (o >= ram_len) { trap = 5; tval = a; goto take; }
            uint16_t v;
            memcpy(&v, ram + o, 2);
            val = f3 == 1 ? (u32)(s32)(int16_t)v : v;
            break;
        }
        case 2:
            if (a & 3) { trap = 4; tval = a; goto take; }
            if (o < ram_len) val = get32(o);
            else if (!dev_load(a, &val)) { trap = 5; tval = a; goto take; }
            break;
        default: goto illegal;
        }
        break;
    }
    case 0x23: {                                                /* stores */
        u32 a = x[RS1] + ((u32)((s32)ir >> 20 & ~31) | rd);
        u32 o = a - RAM_BASE;
        u32 b = x[RS2];
        switch (f3) {
        case 0:
            if (o >= ram_len) { trap = 7; tval = a; goto take; }
            ram[o] = (uint8_t)b;
            res_stored(h, a);
            break;
        case 1: {
            if (a & 1) { trap = 6; tval = a; goto take; }
            if (o >= ram_len) { trap = 7; tval = a; goto take; }
            uint16_t v = (uint16_t)b;
            memcpy(ram + o, &v, 2);
            res_stored(h, a);
            break;
        }
        case 2:
            if (a & 3) { trap = 6; tval = a; goto take; }
            if (o < ram_len) {
                set32(o, b);
                res_stored(h, a);
            } else if (!dev_store(a, b)) { trap = 7; tval = a; goto take; }
            break;
        default: goto illegal;
        }
        rd = 0;
        break;
    }
    case 0x13: {                                                /* op-imm */
        u32 a = x[RS1], i = (u32)((s32)ir >> 20);
        switch (f3) {
        case 0: val = a + i; break;
        case 1: if (ir >> 25 != 0) goto illegal; val = a << (i & 31); break;
        case 2: val = (s32)a < (s32)i; break;
        case 3: val = a < i; break;
        case 4: val = a ^ i; break;
        case 5:
            if (ir >> 25 == 0) val = a >> (i & 31);
            else if (ir >> 25 == 0x20) val = (u32)((s32)a >> (i & 31));
            else goto illegal;
            break;
        case 6: val = a | i; break;
        case 7: val = a & i; break;
        }
        break;
    }
    case 0x33: {                                                /* op */
        u32 a = x[RS1], b = x[RS2];
        switch (ir >> 25) {
        case 0x00:
            switch (f3) {
            case 0: val = a + b; break;
            case 1: val = a << (b & 31); break;
            case 2: val = (s32)a < (s32)b; break;
            case 3: val = a < b; break;
            case 4: val = a ^ b; break;
            case 5: val = a >> (b & 31); break;
            case 6: val = a | b; break;
            case 7: val = a & b; break;
            }
            break;
        case 0x20:
            if (f3 == 0) val = a - b;
            else if (f3 == 5) val = (u32)((s32)a >> (b & 31));
            else goto illegal;
            break;
        case 0x01:
            switch (f3) {
            case 0: val = a * b; break;
            case 1: val = (u32)((u64)((s64)(s32)a * (s64)(s32)b) >> 32); break;
            case 2: val = (u32)((u64)((s64)(s32)a * (s64)(u64)b) >> 32); break;
            case 3: val = (u32)((u64)a * b >> 32); break;
            case 4: val = b == 0 ? 0xFFFFFFFFu
                        : a == 0x80000000u && b == 0xFFFFFFFFu ? a
                        : (u32)((s32)a / (s32)b); break;
            case 5: val = b == 0 ? 0xFFFFFFFFu : a / b; break;
            case 6: val = b == 0 ? a
                        : a == 0x80000000u && b == 0xFFFFFFFFu ? 0
                        : (u32)((s32)a % (s32)b); break;
            case 7: val = b == 0 ? a : a % b; break;
            }
            break;
        default: goto illegal;
        }
        break;
    }
    case 0x0F:                                                  /* fences */
        if (f3 > 1) goto illegal;
        rd = 0;
        break;
    case 0x73:
        if (f3 == 0) {
            if (ir == 0x00000073u) { trap = 11; goto take; }    /* ecall */
            if (ir == 0x00100073u) { trap = 3; goto take; }     /* ebreak */
            if (ir == 0x10500073u) { rd = 0; break; }           /* wfi */
            if (ir != 0x30200073u) goto illegal;                /* mret */
            p->mstatus = (p->mstatus >> 4 & 8) | 0x80;
            next = p->mepc;
            rd = 0;
        } else if (f3 == 4) {
            goto illegal;
        } else {                                                /* csr */
            u32 no = ir >> 20, old;
            u32 src = f3 & 4 ? RS1 : x[RS1];
            int writes = (f3 & 3) == 1 || RS1 != 0;
            if (!csr_load(h, no, &old)) goto illegal;
            if (writes) {
                if (no >> 10 == 3) goto illegal;
                csr_store(h, no, (f3 & 3) == 1 ? src
                               : (f3 & 3) == 2 ? old | src : old & ~src);
            }
            val = old;
        }
        break;
    case 0x2F: {                                                /* atomics */
        u32 f5 = ir >> 27, a = x[RS1], b = x[RS2], o = a - RAM_BASE;
        if (f3 != 2) goto illegal;
        if (f5 == 2) {                                          /* lr.w */
            if (RS2 != 0) goto illegal;
            if (a & 3) { trap = 4; tval = a; goto take; }
            if (o >= ram_len) { trap = 5; tval = a; goto take; }
            val = get32(o);
            if (!p->reserved) n_reserved++;
            p->reserved = 1;
            p->res_addr = a;
            break;
        }
        if (f5 != 3 && f5 != 1 && (f5 & 3) != 0) goto illegal;
        if (a & 3) { trap = 6; tval = a; goto take; }
        if (o >= ram_len) { trap = 7; tval = a; goto take; }
        if (f5 == 3) {                                          /* sc.w */
            int ok = p->reserved && p->res_addr == a;
            if (p->reserved) n_reserved--;
            p->reserved = 0;
            if (ok) {
                set32(o, b);
                res_stored(h, a);
            }
            val = !ok;
            break;
        }
        val = get32(o);
        u32 nw;
        switch (f5) {
        case 1: nw = b; break;
        case 0: nw = val + b; break;
        case 4: nw = val ^ b; break;
        case 12: nw = val & b; break;
        case 8: nw = val | b; break;
        case 16: nw = (s32)val < (s32)b ? val : b; break;
        case 20: nw = (s32)val > (s32)b ? val : b; break;
        case 24: nw = val < b ? val : b; break;
        default: nw = val > b ? val : b; break;                 /* 28 */
        }
        set32(o, nw);
        res_stored(h, a);
        break;
    }
    default:
    illegal:
        trap = 2;
        tval = ir;
        goto take;
    }

    if (rd != 0) x[rd] = val;
    p->pc = next;
    if (wrote == 0) {                   /* nearly always */
        p->minstret++;
        p->mcycle++;
        mtime++;
        return;
    }
    if (!(wrote & W_INSTRET)) p->minstret++;
    if (!(wrote & W_CYCLE)) p->mcycle++;
    if (!(wrote & W_MTIME)) mtime++;
    wrote = 0;
    return;

take:
    p->mepc = pc;
    p->mcause = trap;
    p->mtval = tval;
    p->mstatus = p->mstatus << 4 & 0x80;
    p->pc = p->mtvec & ~3u;
    if ((trap >> 31) && (p->mtvec & 1)) p->pc += 4 * (trap & 31);
    p->mcycle++;
    mtime++;
}

/* ---- images ---- */
static void refuse(int no, const char *name)
{
    fprintf(stderr, "refused %d %s\n", no, name);
    exit(1);
}
static void usage(void)
{
    fprintf(stderr, "usage: interpreter run IMAGE [--raw] [--harts N] "
                    "[--pages N] [--steps N] [--input FILE] [--count]\n");
    exit(2);
}

static uint8_t *read_file(const char *name, size_t *len)
{
    FILE *f = fopen(name, "rb");
    size_t cap = 1 << 16, n = 0, k;
    uint8_t *b = malloc(cap);
    if (!f || !b) refuse(31, "LinkFault");
    while ((k = fread(b + n, 1, cap - n, f)) > 0) {
        n += k;
        if (n == cap && !(b = realloc(b, cap *= 2))) refuse(1, "OutOfMemory");
    }
    if (ferror(f)) refuse(31, "LinkFault");
    fclose(f);
    *len = n;
    return b;
}

static u32 le16(const uint8_t *p) { return p[0] | p[1] << 8; }
static u32 le32(const uint8_t *p) { return le16(p) | le16(p + 2) << 16; }

static u32 load_elf(const uint8_t *b, size_t len)
{
    if (len < 4 || memcmp(b, "\177ELF", 4) != 0) refuse(11, "BadMagic");
    if (len < 52) refuse(13, "Truncated");
    u32 entry = le32(b + 24), phoff = le32(b + 28), n = le16(b + 44);
    if (b[4] != 1 || b[5] != 1 || b[6] != 1 || le16(b + 16) != 2 ||
        le16(b + 18) != 243 || (n != 0 && le16(b + 42) != 32))
        refuse(12, "NotRiscV32");
    if (n > 16) refuse(15, "TooMany");
    if ((u64)phoff + 32 * n > len && n != 0) refuse(13, "Truncated");
    for (u32 i = 0; i < n; i++) {
        const uint8_t *h = b + phoff + 32 * i;
        if (le32(h) != 1 || le32(h + 20) == 0) continue;
        if (le32(h + 16) > le32(h + 20)) refuse(12, "NotRiscV32");
        if ((u64)le32(h + 4) + le32(h + 16) > len) refuse(13, "Truncated");
    }
    for (u32 i = 0; i < n; i++) {
        const uint8_t *h = b + phoff + 32 * i;
        u32 at = le32(h + 12), files = le32(h + 16), mems = le32(h + 20);
        if (le32(h) != 1 || mems == 0) continue;
        if (at < RAM_BASE || (u64)at - RAM_BASE + mems > ram_len)
            refuse(14, "OutsideRam");
        memset(ram + (at - RAM_BASE), 0, mems);
        memcpy(ram + (at - RAM_BASE), b + le32(h + 4), files);
    }
    if (entry - RAM_BASE >= ram_len || (entry & 3)) refuse(14, "OutsideRam");
    return entry;
}

static void drain(void)
{
    while (out_count > 0) {
        u32 n = sizeof outq - out_first;
        if (n > out_count) n = out_count;
        fwrite(outq + out_first, 1, n, stdout);
        out_first = (out_first + n) % sizeof outq;
        out_count -= n;
    }
}

static u64 number(const char *s, u64 low, u64 high)
{
    char *end;
    unsigned long long v = strtoull(s, &end, 10);
    if (*s < '0' || *s > '9' || *end || v < low || v > high) usage();
    return v;
}

/* The turns from one to another, or to a halt: the turn that comes next. */
static u64 turns(u64 turn, u64 stop);

/* Whether the board's input goes on, and one byte of it, if there is room. */
static inline int fed(void) { return in_at < in_len; }
static inline void feed(void)
{
    if (in_count < 16) inq[(in_first + in_count++) % 16] = in_bytes[in_at++];
}

int main(int argc, char **argv)
{
    const char *image = NULL, *input = NULL;
    u64 steps = 1000000, pages = 256, turn;
    int raw = 0, count = 0;
    if (argc < 2 || strcmp(argv[1], "run") != 0) usage();
    for (int i = 2; i < argc; i++) {
        const char *a = argv[i];
        if (strcmp(a, "--raw") == 0) raw = 1;
        else if (strcmp(a, "--count") == 0) count = 1;
        else if (a[0] != '-') { if (image) usage(); image = a; }
        else if (i + 1 == argc) usage();
        else if (strcmp(a, "--harts") == 0) nharts = (u32)number(argv[++i], 1, 8);
        else if (strcmp(a, "--pages") == 0) pages = number(argv[++i], 1, 4096);
        else if (strcmp(a, "--steps") == 0) steps = number(argv[++i], 1, 1000000000);
        else if (strcmp(a, "--input") == 0) input = argv[++i];
        else usage();
    }
    if (!image) usage();
    size_t len;
    uint8_t *bytes = read_file(image, &len);
    if (input) in_bytes = read_file(input, &in_len);
    ram_len = (u32)pages * 4096;
    ram = calloc(ram_len, 1);
    if (!ram) refuse(1, "OutOfMemory");
    u32 entry = RAM_BASE;
    if (raw) {
        if (len > ram_len) refuse(14, "OutsideRam");
        memcpy(ram, bytes, len);
    } else {
        entry = load_elf(bytes, len);
    }
    free(bytes);
    for (u32 h = 0; h < nharts; h++) {
        harts[h].pc = entry;
        harts[h].x[10] = h;
        harts[h].mtimecmp = ~(u64)0;
    }

    for (turn = 0; turn < steps && !halted; ) {
        u64 stop = turn + 64 < steps ? turn + 64 : steps;
        turn = turns(turn, stop);
        if (out_count) drain();
    }
    drain();
    fflush(stdout);
    free(in_bytes);
    free(ram);
    if (count) fprintf(stderr, "turns %llu\n", (unsigned long long)turn);
    if (halted) fprintf(stderr, "halted %u\n", halt_status);
    else fprintf(stderr, "steps spent\n");
    return 0;
}
