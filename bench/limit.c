/* The board in C, as fast as C can: the same rules as the plain interpreter, so it fetches and decodes at every
 * step, keeps no decoded instruction and translates nothing. What makes it fast is a loop of plain rows:
 *
 * - one table of 8 * 128 entries, by opcode and funct3, leads to a row by one jump: by computed goto, or by one
 *   switch where SWITCH is defined;
 * - pc is kept as a place in RAM, the counters rise once at the end, and interrupts are looked at once: so many
 *   steps are made in it as pass before the timer can interrupt;
 * - whatever a row of the loop does not cover goes to the plain step.
 *
 * Each store marks its page, as a host must that copies a running guest.
 */
#include "board.h"

static uint8_t dirty[4096];

/* Every row of the loop: opcode, funct3, name. */
#define ROWS(ROW) \
    ROW(0x03, 0, lb) ROW(0x03, 1, lh) ROW(0x03, 2, lw) ROW(0x03, 4, lbu) ROW(0x03, 5, lhu) \
    ROW(0x0F, 0, fence) ROW(0x0F, 1, fencei) \
    ROW(0x13, 0, addi) ROW(0x13, 1, slli) ROW(0x13, 2, slti) ROW(0x13, 3, sltiu) \
    ROW(0x13, 4, xori) ROW(0x13, 5, srxi) ROW(0x13, 6, ori) ROW(0x13, 7, andi) \
    ROW(0x23, 0, sb) ROW(0x23, 1, sh) ROW(0x23, 2, sw) \
    ROW(0x2F, 2, amo) \
    ROW(0x33, 0, add) ROW(0x33, 1, sll) ROW(0x33, 2, slt) ROW(0x33, 3, sltu) \
    ROW(0x33, 4, xor) ROW(0x33, 5, srx) ROW(0x33, 6, or) ROW(0x33, 7, and) \
    ROW(0x63, 0, beq) ROW(0x63, 1, bne) ROW(0x63, 4, blt) ROW(0x63, 5, bge) ROW(0x63, 6, bltu) \
    ROW(0x63, 7, bgeu) ROW(0x67, 0, jalr) \
    ROW(0x73, 1, csr) ROW(0x73, 2, csr) ROW(0x73, 3, csr) ROW(0x73, 5, csr) ROW(0x73, 6, csr) \
    ROW(0x73, 7, csr)
/* Rows with any funct3. */
#define WIDE_ROWS(ROW) ROW(0x17, auipc) ROW(0x37, lui) ROW(0x6F, jal)

#define PLACE(w) (((w) & 0x707F) * 0x02000480u >> 22)   /* 8 * opcode + funct3 */

#ifdef SWITCH
enum { k_slow, k_lb, k_lh, k_lw, k_lbu, k_lhu, k_fence, k_fencei, k_addi, k_slli, k_slti, k_sltiu, k_xori, k_srxi,
       k_ori, k_andi, k_sb, k_sh, k_sw, k_amo, k_add, k_sll, k_slt, k_sltu, k_xor, k_srx, k_or, k_and, k_beq, k_bne,
       k_blt, k_bge, k_bltu, k_bgeu, k_jalr, k_csr, k_auipc, k_lui, k_jal };
#define ROW(op, f3, name) [8 * op + f3] = k_##name,
#define WIDE(op, name) [8 * op ... 8 * op + 7] = k_##name,
static const uint8_t table[1024] = { ROWS(ROW) WIDE_ROWS(WIDE) };
#define CASE(name) case k_##name:
#define NEXT goto stepped
#else
#define CASE(name) name:
#define NEXT \
    do { \
        if (--left == 0) goto out; \
        FETCH; \
        goto *table[PLACE(w)]; \
    } while (0)
#endif
#define FETCH \
    do { \
        if (at >= len) goto out; \
        memcpy(&w, bytes + at, 4); \
    } while (0)

#define RD (w >> 7 & 31)
#define A x[w >> 15 & 31]
#define B x[w >> 20 & 31]
#define IMM ((u32)((s32)w >> 20))
#define STORE_IMM (((u32)((s32)w >> 20) & ~31u) | (w >> 7 & 31))
#define BRANCH_IMM (((u32)((s32)w >> 20) & 0xFFFFF7E0u) | (w >> 7 & 0x1E) | (w & 0x80) << 4)
#define JUMP_IMM (((u32)((s32)w >> 11) & 0xFFF00000u) | (w & 0xFF000) | (w >> 9 & 0x800) | (w >> 20 & 0x7FE))
#define F7 (w >> 25)
#define SET(value) do { x[RD] = (value); x[0] = 0; at += 4; } while (0); NEXT
#define BRANCH(taken) { u32 step_by = (taken) ? BRANCH_IMM : 4; if (step_by & 3) goto out; at += step_by; } NEXT
#define ADDRESS(size, imm) u32 o = A + (imm) - RAM_BASE; if ((size > 1 && (o & (size - 1))) || o >= len) goto out
#define STORED(size) dirty[o >> 12] = 1; if (n_reserved) res_stored(h, o + RAM_BASE); at += 4

/* So many steps of a hart, until a row is not one of these: how many are left. No interrupt comes meanwhile. */
static __attribute__((noinline)) u64 straight(struct hart *p, u32 h, u64 left)
{
#ifndef SWITCH
#define ROW(op, f3, name) [8 * op + f3] = &&name,
#define WIDE(op, name) [8 * op ... 8 * op + 7] = &&name,
    static const void *const table[1024] = { [0 ... 1023] = &&out, ROWS(ROW) WIDE_ROWS(WIDE) };
#endif
    u32 *const x = p->x;
    uint8_t *const bytes = ram;
    const u32 len = ram_len;
    u64 ticked = left;
    u32 at = p->pc - RAM_BASE, w;
    if (left == 0) return 0;
#ifdef SWITCH
    for (; left > 0; left--) {
        FETCH;
        switch (table[PLACE(w)]) {
        case k_slow: goto out;
#else
        FETCH;
        goto *table[PLACE(w)];
        {
#endif
        CASE(lui) SET(w & 0xFFFFF000u);
        CASE(auipc) SET(at + RAM_BASE + (w & 0xFFFFF000u));
        CASE(jal) {
            u32 to = at + JUMP_IMM;
            if (to & 3) goto out;
            x[RD] = at + RAM_BASE + 4; x[0] = 0; at = to;
        } NEXT;
        CASE(jalr) {
            u32 to = ((A + IMM) & ~1u) - RAM_BASE;
            if (to & 3) goto out;
            x[RD] = at + RAM_BASE + 4; x[0] = 0; at = to;
        } NEXT;
        CASE(beq) BRANCH(A == B);
        CASE(bne) BRANCH(A != B);
        CASE(blt) BRANCH((s32)A < (s32)B);
        CASE(bge) BRANCH((s32)A >= (s32)B);
        CASE(bltu) BRANCH(A < B);
        CASE(bgeu) BRANCH(A >= B);
        CASE(lb) { ADDRESS(1, IMM); SET((u32)(s32)(int8_t)bytes[o]); }
        CASE(lbu) { ADDRESS(1, IMM); SET(bytes[o]); }
        CASE(lh) { ADDRESS(2, IMM); int16_t v; memcpy(&v, bytes + o, 2); SET((u32)(s32)v); }
        CASE(lhu) { ADDRESS(2, IMM); uint16_t v; memcpy(&v, bytes + o, 2); SET(v); }
        CASE(lw) { ADDRESS(4, IMM); u32 v; memcpy(&v, bytes + o, 4); SET(v); }
        CASE(sb) { ADDRESS(1, STORE_IMM); bytes[o] = (uint8_t)B; STORED(1); } NEXT;
        CASE(sh) { ADDRESS(2, STORE_IMM); uint16_t v = (uint16_t)B; memcpy(bytes + o, &v, 2); STORED(2); } NEXT;
        CASE(sw) { ADDRESS(4, STORE_IMM); u32 v = B; memcpy(bytes + o, &v, 4); STORED(4); } NEXT;
        CASE(addi) SET(A + IMM);
        CASE(slti) SET((s32)A < (s32)IMM);
        CASE(sltiu) SET(A < IMM);
        CASE(xori) SET(A ^ IMM);
        CASE(ori) SET(A | IMM);
        CASE(andi) SET(A & IMM);
        CASE(slli) if (w >= 1u << 25) goto out; SET(A << (w >> 20 & 31));
        CASE(srxi) if (w < 1u << 25) { SET(A >> (w >> 20 & 31)); }
            if (F7 != 0x20) goto out;
            SET((u32)((s32)A >> (w >> 20 & 31)));
        CASE(add) if (w < 1u << 25) { SET(A + B); }
            if (F7 == 0x20) { SET(A - B); }
            if (F7 != 1) goto out;
            SET(A * B);
        CASE(sll) if (w < 1u << 25) { SET(A << (B & 31)); }
            if (F7 != 1) goto out;
            SET((u32)((u64)((s64)(s32)A * (s64)(s32)B) >> 32));
        CASE(slt) if (w < 1u << 25) { SET((s32)A < (s32)B); }
            if (F7 != 1) goto out;
            SET((u32)((u64)((s64)(s32)A * (s64)(u64)B) >> 32));
        CASE(sltu) if (w < 1u << 25) { SET(A < B); }
            if (F7 != 1) goto out;
            SET((u32)((u64)A * B >> 32));
        CASE(xor) if (w < 1u << 25) { SET(A ^ B); }
            if (F7 != 1) goto out;
            { u32 a = A, b = B; SET(b == 0 ? ~0u : b == ~0u ? 0u - a : (u32)((s32)a / (s32)b)); }
        CASE(srx) if (w < 1u << 25) { SET(A >> (B & 31)); }
            if (F7 == 0x20) { SET((u32)((s32)A >> (B & 31))); }
            if (F7 != 1) goto out;
            { u32 a = A, b = B; SET(b == 0 ? ~0u : a / b); }
        CASE(or) if (w < 1u << 25) { SET(A | B); }
            if (F7 != 1) goto out;
            { u32 a = A, b = B; SET(b == 0 ? a : b == ~0u ? 0 : (u32)((s32)a % (s32)b)); }
        CASE(and) if (w < 1u << 25) { SET(A & B); }
            if (F7 != 1) goto out;
            { u32 a = A, b = B; SET(b == 0 ? a : a % b); }
        CASE(fence) CASE(fencei) at += 4; NEXT;
        CASE(amo) {
            u32 f5 = w >> 27, a = A, b = B, o = a - RAM_BASE, old, now;
            if ((a & 3) || o >= len) goto out;
            memcpy(&old, bytes + o, 4);
            switch (f5) {
            case 2:
                if (w >> 20 & 31) goto out;
                n_reserved += !p->reserved; p->reserved = 1; p->res_addr = a;
                SET(old);
            case 3: {
                int ok = p->reserved && p->res_addr == a;
                n_reserved -= p->reserved != 0; p->reserved = 0;
                if (ok) { memcpy(bytes + o, &b, 4); dirty[o >> 12] = 1; if (n_reserved) res_stored(h, a); }
                SET((u32)!ok);
            }
            case 1: now = b; break;
            case 0: now = old + b; break;
            case 4: now = old ^ b; break;
            case 12: now = old & b; break;
            case 8: now = old | b; break;
            case 16: now = (s32)old < (s32)b ? old : b; break;
            case 20: now = (s32)old > (s32)b ? old : b; break;
            case 24: now = old < b ? old : b; break;
            case 28: now = old > b ? old : b; break;
            default: goto out;
            }
            memcpy(bytes + o, &now, 4); dirty[o >> 12] = 1;
            if (n_reserved) res_stored(h, a);
            SET(old);
        }
        CASE(csr) {
            /* Only registers that no counter and no interrupt looks at. */
            u32 no = w >> 20, f3 = w >> 12 & 7, source = f3 & 4 ? w >> 15 & 31 : A, old;
            int writes = (f3 & 3) == 1 || (w >> 15 & 31) != 0;
            if (no - 0x340 > 3 && no != 0x305) goto out;
            (void)csr_load(h, no, &old);
            if (writes) csr_store(h, no, (f3 & 3) == 1 ? source : (f3 & 3) == 2 ? old | source : old & ~source);
            SET(old);
        }
#ifdef SWITCH
        default: __builtin_unreachable();
#endif
        }
#ifdef SWITCH
    stepped:;
    }
#endif
out:
    ticked -= left;
    p->pc = at + RAM_BASE;
    p->mcycle += ticked;
    p->minstret += ticked;
    mtime += ticked;
    return left;
}

/* In how many steps of hart h no interrupt comes, at most n. */
static u64 quiet(struct hart *p, u32 h, u64 n)
{
    if (!(p->mstatus & 8) || p->mie == 0) return n;
    if (mip_of(h) & p->mie) return 0;
    if (!(p->mie & 0x80)) return n;
    u64 until = p->mtimecmp - mtime;    /* not pending: mtime is below it */
    return until < n ? until : n;
}

/* Several harts in turn, and input that is left, go by the plain step. */
static u64 turns(u64 turn, u64 stop)
{
    struct hart *p = &harts[turn_of];
    while (turn < stop && !halted) {
        if (nharts > 1 || fed()) {
            if (fed()) feed();
            step(&harts[turn_of], turn_of);
            turn++;
            if (++turn_of == nharts) turn_of = 0;
            continue;
        }
        u64 asked = quiet(p, 0, stop - turn), left = straight(p, 0, asked);
        turn += asked - left;
        if (left > 0 || asked == 0) {   /* no row of the loop, or an interrupt is due */
            step(p, 0);
            turn++;
        }
    }
    return turn;
}
