// Document 01's walk written plainly in C, to measure the proved one against: the same refusals in the same order, the same listing,
// nothing proved. As `walk_many` does, it reads reports one after the other, each preceded by its length (32 bits, little-endian), and
// follows each listing by an empty line.

#include "../tests/libc.h"

enum { LONGEST = 65536, HEAD = 352, ROOM = 256, SP = 13, LR = 14, PC = 15 };
enum place { LEAF, PROLOGUE, BODY, EPILOGUE };

struct regs { u32 r[16]; u64 d[32]; };

// Lent bytes and the address of the first.
struct lent { const u8 *bytes; u32 base, len; };

struct tables {
    u32 image, records;
    const u8 *pdata;
    struct lent xdata, stack;
    int fit, sorted;
};

// An unwind record, full or packed. Its epilogues are scope words, or one that ends where the function does.
struct record {
    u32 span, epilogues, index, code_bytes;
    int fragment, at_end;
    const u8 *scopes, *codes;
    u8 written[16];
};

struct frame { u32 pc, sp; enum place place; };

static u32 word(const u8 *p) { return p[0] | (u32)p[1] << 8 | (u32)p[2] << 16 | (u32)p[3] << 24; }

// ---- codes

// For each first byte the code's bytes, 0 where it begins none, and its instruction's halfwords.
static const struct {
    u8 bytes, halfwords;
} rows[256] = {
    [0x00 ... 0x7F] = {1, 1}, [0x80 ... 0xBF] = {2, 2}, [0xC0 ... 0xCC] = {1, 1}, [0xCE] = {1, 1}, [0xD0 ... 0xD7] = {1, 1},
    [0xD8 ... 0xE7] = {1, 2}, [0xE8 ... 0xEB] = {2, 2}, [0xEC ... 0xED] = {2, 1}, [0xEF] = {2, 2}, [0xF5 ... 0xF6] = {2, 2},
    [0xF7] = {3, 1}, [0xF8] = {4, 1}, [0xF9] = {3, 2}, [0xFA] = {4, 2}, [0xFB] = {1, 1}, [0xFC] = {1, 2},
    [0xFD] = {1, 1}, [0xFE] = {1, 2}, [0xFF] = {1, 0},
};

// Whether a code stands at an index.
static int is_code(const struct record *rec, u32 at) {
    if (at >= rec->code_bytes) return 0;
    const u8 *c = rec->codes + at;
    if (rows[*c].bytes == 0 || rec->code_bytes - at < rows[*c].bytes) return 0;
    if (*c == 0xEF) return c[1] < 16;
    if (*c == 0xF5 || *c == 0xF6) return c[1] >> 4 <= (c[1] & 15);
    return 1;
}

// The bytes of the instructions of the list at an index, and of its end code's; or 6.
static int scan(const struct record *rec, u32 at, u32 *list, u32 *end) {
    for (*list = 0; is_code(rec, at); at += rows[rec->codes[at]].bytes) {
        *end = 2 * rows[rec->codes[at]].halfwords;
        if (rec->codes[at] >= 0xFD) return 0;
        *list += *end;
    }
    return 6;
}

// Skips codes of a scanned list whose instructions take n bytes; or 9.
static int skip(const struct record *rec, u32 *at, u32 n) {
    while (n) {
        u32 bytes = 2 * rows[rec->codes[*at]].halfwords;
        if (bytes > n || rec->codes[*at] >= 0xFD) return 9;
        n -= bytes;
        *at += rows[rec->codes[*at]].bytes;
    }
    return 0;
}

// ---- the machine. SP stands in the stack before a code.

static int stands(const struct lent *s, u32 sp) { return sp % 4 == 0 && sp >= s->base && sp - s->base <= s->len; }

static int up(const struct lent *s, struct regs *g, u32 words) {
    if (words > (s->len - (g->r[SP] - s->base)) / 4) return 8;
    g->r[SP] += 4 * words;
    return 0;
}

static int pop(const struct lent *s, struct regs *g, u32 list) {
    const u8 *at = s->bytes + (g->r[SP] - s->base);
    if (up(s, g, __builtin_popcount(list))) return 8;
    for (int x = 0; list; x++, list >>= 1)
        if (list & 1) g->r[x] = word(at), at += 4;
    return 0;
}

static int vpop(const struct lent *s, struct regs *g, u32 from, u32 to) {
    const u8 *at = s->bytes + (g->r[SP] - s->base);
    if (up(s, g, 2 * (to + 1 - from))) return 8;
    for (u32 x = from; x <= to; x++, at += 8) g->d[x] = word(at) | (u64)word(at + 4) << 32;
    return 0;
}

static int load_lr(const struct lent *s, struct regs *g, u32 words) {
    u32 at = g->r[SP] - s->base;
    if (s->len - at < 4) return 8;
    g->r[LR] = word(s->bytes + at);
    return up(s, g, words);
}

static int set_sp(const struct lent *s, struct regs *g, u32 sp) {
    g->r[SP] = sp;
    return stands(s, sp) ? 0 : 8;
}

// r4 up to rX.
static u32 from_r4(u32 x) { return (1u << (x + 1)) - 16; }

static int undo(const struct lent *s, struct regs *g, const u8 *c) {
    u32 b = *c;
    switch (b) {
    case 0x00 ... 0x7F: return up(s, g, b);
    case 0x80 ... 0xBF: return pop(s, g, (b & 31) << 8 | c[1] | (b >> 5 & 1) << LR);
    case 0xC0 ... 0xCF: return set_sp(s, g, g->r[b & 15]);
    case 0xD0 ... 0xD7: return pop(s, g, from_r4(4 + (b & 3)) | (b >> 2 & 1) << LR);
    case 0xD8 ... 0xDF: return pop(s, g, from_r4(8 + (b & 3)) | (b >> 2 & 1) << LR);
    case 0xE0 ... 0xE7: return vpop(s, g, 8, 8 + (b & 7));
    case 0xE8 ... 0xEB: return up(s, g, (b & 3) << 8 | c[1]);
    case 0xEC ... 0xED: return pop(s, g, c[1] | (b & 1) << LR);
    case 0xEF: return load_lr(s, g, c[1]);
    case 0xF5: return vpop(s, g, c[1] >> 4, c[1] & 15);
    case 0xF6: return vpop(s, g, 16 + (c[1] >> 4), 16 + (c[1] & 15));
    case 0xF7: case 0xF9: return up(s, g, c[1] << 8 | c[2]);
    case 0xF8: case 0xFA: return up(s, g, c[1] << 16 | c[2] << 8 | c[3]);
    default: return 0;
    }
}

// Runs a scanned list of codes and counts them.
static int run(const struct lent *s, struct regs *g, const u8 *c, u32 *count) {
    for (; *c < 0xFD; c += rows[*c].bytes, ++*count)
        if (undo(s, g, c)) return 8;
    return 0;
}

// ---- records

static int holds(const struct lent *l, u32 at, u64 n) { return at >= l->base && at - l->base + n <= l->len; }

// A full record: 5 and 4 in document 01's order.
static int full_record(const struct lent *x, u32 at, struct record *rec) {
    if (!holds(x, at, 4)) return 5;
    const u8 *p = x->bytes + (at - x->base);
    u32 head = word(p), bytes = 4, count = head >> 23 & 31, code_words = head >> 28;
    if (head >> 18 & 3) return 4;
    if (head >> 23 == 0) {
        if (!holds(x, at, 8)) return 5;
        u32 more = word(p + 4);
        if (more >> 24) return 4;
        bytes = 8, count = more & 0xFFFF, code_words = more >> 16;
    }
    rec->at_end = head >> 21 & 1;
    u32 scopes = rec->at_end ? 0 : count;
    if (!holds(x, at, bytes + 4 * scopes + 4 * code_words + 4 * (head >> 20 & 1))) return 5;
    rec->scopes = p + bytes;
    for (u32 k = 0; k < scopes; k++)
        if (word(rec->scopes + 4 * k) >> 18 & 3) return 4;
    rec->span = 2 * (head & 0x3FFFF), rec->fragment = head >> 22 & 1;
    rec->epilogues = rec->at_end ? 1 : count;
    rec->index = count;
    rec->codes = rec->scopes + 4 * scopes, rec->code_bytes = 4 * code_words;
    return 0;
}

static u8 *put_up(u8 *out, u32 words) {
    if (words > 127) *out++ = 0xE8 | words >> 8;
    if (words) *out++ = words;
    return out;
}

static u8 *put_pop(u8 *out, int narrow, u32 list, u32 lr) {
    u32 low = narrow ? 4 : 8;
    if (!list && !lr) return out;
    for (u32 x = low; x < low + 4; x++)
        if (list == from_r4(x)) return *out = (narrow ? 0xD0 : 0xD8) | lr << 2 | (x - low), out + 1;
    *out++ = narrow ? 0xEC | lr : 0x80 | lr << 5 | list >> 8;
    *out++ = list;
    return out;
}

// A packed record, as the codes that it stands for; or 4.
static int packed_record(u32 w, struct record *rec) {
    u32 flag = w & 3, ret = w >> 13 & 3, h = w >> 15 & 1, reg = w >> 16 & 7, r = w >> 19 & 1, l = w >> 20 & 1, c = w >> 21 & 1;
    if (flag == 3 || (!ret && !l) || (c && !l) || (c && !r && reg == 7)) return 4;
    u32 adjust = w >> 22, folded = adjust >= 0x3F4, pf = folded && adjust & 4, ef = folded && adjust & 8;
    u32 amount = folded ? (adjust & 3) + 1 : adjust, vpops = r && reg != 7;
    u32 saved = (r ? 0 : from_r4(4 + reg)) | c << 11, homed = 16 - (8 >> (adjust & 3));
    u32 pushed = saved | (pf ? homed : 0), popped = saved | (ef ? homed : 0);
    u8 *out = put_up(rec->written, pf ? 0 : amount);
    if (vpops) *out++ = 0xE0 | reg;
    // mov r11,sp where only r11 and LR are pushed: with C=1 LR is.
    if (c) *out++ = pushed == 1 << 11 ? 0xFB : 0xFC;
    out = put_pop(out, pushed < 256, pushed, l);
    if (h) *out++ = 4;
    *out++ = 0xFF;
    rec->index = out - rec->written;
    if (ret != 3) {
        int loads = h && l;
        out = put_up(out, ef ? 0 : amount);
        if (vpops) *out++ = 0xE0 | reg;
        // A pop with LR has 32 bits; one with PC, which is Ret=0's, may have 16.
        out = put_pop(out, popped < 256 && (loads || !ret || !l), popped, loads ? 0 : l);
        if (loads) *out++ = 0xEF, *out++ = 5;
        else if (h) *out++ = 4;
        *out++ = loads || !ret ? 0xFF : 0xFC + ret;
    }
    rec->span = 2 * (w >> 2 & 0x7FF), rec->fragment = flag == 2;
    rec->at_end = 1, rec->epilogues = ret != 3;
    rec->codes = rec->written, rec->code_bytes = out - rec->written;
    return 0;
}

// The place of an offset and the index of the first code that runs there; or 6, 7, 9, 10.
static int place_of(const struct record *rec, u32 offset, enum place *place, u32 *index) {
    u32 list, end, scanned = 0, hit = 0, hit_start = 0, hit_index = 0, condition = 14;
    if (scan(rec, 0, &list, &end)) return 6;
    u32 prologue = rec->fragment ? 0 : list;
    // An epilogue must start above the one before it and, unless it is empty, where nothing before it reaches.
    u32 floor = 0, reach = prologue, fits = prologue <= rec->span;
    for (u32 k = 0; k < rec->epilogues; k++) {
        u32 scope = rec->at_end ? 14 << 20 : word(rec->scopes + 4 * k), at = rec->at_end ? rec->index : scope >> 24;
        // Epilogues often share their codes: they are scanned anew only where the index changes.
        if (at != scanned && scan(rec, at, &list, &end)) return 6;
        scanned = at;
        u32 bytes = list + end, start = 2 * (scope & 0x3FFFF);
        if (rec->at_end && bytes <= rec->span) start = rec->span - bytes;
        if (start < floor || start + bytes > rec->span || (bytes && start < reach)) fits = 0;
        floor = start + 1;
        if (bytes) reach = start + bytes;
        if (offset >= start && offset - start < bytes) hit = 1, hit_start = start, hit_index = at, condition = scope >> 20 & 15;
    }
    if (!fits) return 7;
    *index = offset < prologue ? 0 : hit_index;
    *place = offset < prologue ? PROLOGUE : hit ? EPILOGUE : BODY;
    if (*place == PROLOGUE) return skip(rec, index, prologue - offset);
    if (*place == BODY) return 0;
    if (skip(rec, index, offset - hit_start)) return 9;
    return condition == 14 ? 0 : 10;
}

// ---- frames

static u32 start_of(const struct tables *t, u32 i) { return word(t->pdata + 8 * i) & ~1u; }

// What the tables alone show, once for a walk: 1 and 3.
static void check(struct tables *t) {
    const struct lent *s = &t->stack, *x = &t->xdata;
    t->fit = s->base % 4 == 0 && s->len % 4 == 0 && (u64)s->base + s->len <= 0xFFFFFFFC;
    t->fit = t->fit && x->base % 4 == 0 && (u64)x->base + x->len <= 0x100000000;
    t->sorted = 1;
    for (u32 i = 1; i < t->records && t->sorted; i++) t->sorted = start_of(t, i - 1) < start_of(t, i);
}

// How many records start at or below an RVA.
static u32 records_upto(const struct tables *t, u32 rva) {
    u32 low = 0, high = t->records;
    while (low < high) {
        u32 mid = low + (high - low) / 2;
        if (start_of(t, mid) <= rva) low = mid + 1;
        else high = mid;
    }
    return low;
}

// One frame of a walk, in place; after a refusal the registers are of no use.
static int unwind(const struct tables *t, int first, struct regs *g, enum place *place, u32 *codes) {
    u32 pc = g->r[PC] & ~1u, sp = g->r[SP];
    if (!t->fit) return 1;
    if (pc < t->image) return 2;
    if (!t->sorted) return 3;
    if (!stands(&t->stack, sp)) return 8;
    u32 n = records_upto(t, pc - t->image), offset = 0, index, ran = 0;
    struct record rec;
    int refusal = 0;
    rec.span = 0;
    if (n) {
        u32 w = word(t->pdata + 8 * n - 4);
        refusal = w & 3 ? packed_record(w, &rec) : full_record(&t->xdata, w, &rec);
        offset = pc - t->image - start_of(t, n - 1);
    }
    if (refusal) return refusal;
    *place = LEAF;
    if (offset < rec.span) {
        refusal = place_of(&rec, offset, place, &index);
        if (!refusal) refusal = run(&t->stack, g, rec.codes + index, &ran);
        if (refusal) return refusal;
        if (g->r[SP] < sp) return 11;
        if (!first && g->r[SP] == sp) return 13;
    } else if (!first) return 12;
    g->r[PC] = g->r[LR] & ~1u;
    *codes += ran;
    return 0;
}

// ---- the report and its listing

static char *put_text(char *out, const char *text) {
    while (*text) *out++ = *text++;
    return out;
}

static char *put_hex(char *out, u32 value) {
    for (int shift = 28; shift >= 0; shift -= 4) *out++ = "0123456789abcdef"[value >> shift & 15];
    return out;
}

static char *put_decimal(char *out, u32 value) {
    if (value >= 10) out = put_decimal(out, value / 10);
    *out++ = '0' + value % 10;
    return out;
}

static char *put_frame(char *out, u32 number, const struct frame *f) {
    static const char *const places[] = {" leaf\n", " prologue\n", " body\n", " epilogue\n"};
    out = put_hex(put_text(put_decimal(out, number), " "), f->pc);
    out = put_hex(put_text(out, " "), f->sp);
    return put_text(out, places[f->place]);
}

static char *list_walk(char *out, const struct tables *t, struct regs *g) {
    struct frame list[ROOM];
    u32 frames = 0, codes = 0, pc = 0;
    int refusal = 0, ended = 0;
    while (!ended && frames < ROOM) {
        struct frame *f = &list[frames];
        pc = f->pc = g->r[PC] & ~1u, f->sp = g->r[SP];
        refusal = unwind(t, frames == 0, g, &f->place, &codes);
        if (refusal) break;
        frames++;
        ended = g->r[PC] == 0;
    }
    out = put_text(out, "frame pc sp place\n");
    for (u32 i = 0; i < frames; i++) out = put_frame(out, i, &list[i]);
    if (refusal) out = put_hex(put_text(put_decimal(put_text(out, "refused "), refusal), " at "), pc);
    else out = put_text(out, ended ? "end" : "full");
    out = put_decimal(put_text(out, " frames "), frames);
    out = put_decimal(put_text(out, " codes "), codes);
    return put_text(out, "\n");
}

// Takes a report apart; 0 where it is unfit.
static int read_report(const u8 *file, size n, struct tables *t, struct regs *g) {
    if (n < HEAD || n > LONGEST || memcmp(file, "WLK\1\0\0\0", 8)) return 0;
    t->image = word(file + 8), t->records = word(file + 12);
    t->xdata.base = word(file + 16), t->xdata.len = word(file + 20);
    t->stack.base = word(file + 24), t->stack.len = word(file + 28);
    if (HEAD + 8 * (u64)t->records + t->xdata.len + t->stack.len != n) return 0;
    t->pdata = file + HEAD;
    t->xdata.bytes = t->pdata + 8 * t->records;
    t->stack.bytes = t->xdata.bytes + t->xdata.len;
    for (int x = 0; x < 16; x++) g->r[x] = word(file + 32 + 4 * x);
    for (int x = 0; x < 32; x++) g->d[x] = word(file + 96 + 8 * x) | (u64)word(file + 100 + 8 * x) << 32;
    return 1;
}

static char *list_report(char *out, const u8 *file, size n) {
    struct tables t;
    struct regs g;
    if (!read_report(file, n, &t, &g)) return put_text(out, "refused 14\n");
    check(&t);
    return list_walk(out, &t, &g);
}

// The next report of `len` bytes, or no bytes for one that the input ends in or that is too long, which is passed over.
static size next_report(u8 *file, u32 len) {
    if (len <= LONGEST) return fread(file, 1, len, stdin) == len ? len : 0;
    for (size n = 1; len && n; len -= n) n = fread(file, 1, len < LONGEST ? len : LONGEST, stdin);
    return 0;
}

int main(void) {
    static u8 file[LONGEST];
    static char out[8193];
    u8 head[4];
    for (size n; (n = fread(head, 1, 4, stdin));) {
        char *end = list_report(out, file, n < 4 ? 0 : next_report(file, word(head)));
        *end++ = '\n';
        fwrite(out, 1, end - out, stdout);
    }
    return fflush(stdout) != 0;
}
