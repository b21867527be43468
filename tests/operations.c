// Puts requests to the proved functions of crates/exports_c, linked as a C program links them. Requests and answers: tests/README.md.

#include "libc.h"

u32 leafbobbin_find(u32 image, const u8 *pdata, size pdata_bytes, u32 pc, u64 out[4]);
u32 leafbobbin_size(u32 rva, const u8 *xdata, size xdata_bytes, u32 at, u32 *bytes);
u32 leafbobbin_word(const u32 fields[9], u32 *word);
u32 leafbobbin_codes(u32 word, u8 bytes[16], size lens[2]);
size leafbobbin_walk(const u8 *report, size report_bytes, u8 *out, size out_bytes);
size leafbobbin_caller(const u8 *report, size report_bytes, u8 *out, size out_bytes);

enum { FIND = 1, SIZE, WORD, CODES, WALK, CALLER };
enum { LONGEST = 1 << 17, ROOM = 8192 };

static u8 request[LONGEST];

static u32 word(const u8 *p) { return p[0] | (u32)p[1] << 8 | (u32)p[2] << 16 | (u32)p[3] << 24; }

// Number k of the request, after the word that says which operation it is.
static u32 number(u32 k) { return word(request + 4 * k); }

// What is lent for an answer is full of something else before.
static void spoil(void *lent, size bytes) { memset(lent, 0xA5, bytes); }

static void find(size len) {
    u64 out[4];
    spoil(out, sizeof out);
    u32 refusal = leafbobbin_find(number(1), request + 12, len - 12, number(2), out);
    printf("find %u %llu %llu %08llx %08llx\n\n", refusal, out[0], out[1], out[2], out[3]);
}

static void size_of(size len) {
    u32 bytes;
    spoil(&bytes, sizeof bytes);
    u32 refusal = leafbobbin_size(number(1), request + 12, len - 12, number(2), &bytes);
    printf("size %u %u\n\n", refusal, bytes);
}

static void packed_word(void) {
    u32 fields[9], packed;
    for (u32 k = 0; k < 9; k++) fields[k] = number(k + 1);
    spoil(&packed, sizeof packed);
    u32 refusal = leafbobbin_word(fields, &packed);
    printf("word %u %08x\n\n", refusal, packed);
}

static void codes(void) {
    u8 bytes[16];
    size lens[2];
    spoil(bytes, sizeof bytes);
    spoil(lens, sizeof lens);
    u32 refusal = leafbobbin_codes(number(1), bytes, lens);
    printf("codes %u %lu %lu ", refusal, lens[0], lens[1]);
    for (u32 k = 0; k < 16; k++) printf("%02x", bytes[k]);
    printf("\n\n");
}

// The text into a buffer of dots, which may be too short for it.
static void text(const char *what, size show(const u8 *, size, u8 *, size), size len) {
    static u8 out[ROOM];
    size room = number(1) < ROOM ? number(1) : ROOM;
    memset(out, '.', room);
    printf("%s %lu\n", what, show(request + 8, len - 8, out, room));
    fwrite(out, 1, room, stdout);
    printf("\n\n");
}

// Whether the request is long enough to be one, and was put.
static int put(size len) {
    if (len < 8) return 0;
    switch (number(0)) {
        case FIND: if (len < 12) return 0; find(len); return 1;
        case SIZE: if (len < 12) return 0; size_of(len); return 1;
        case WORD: if (len < 40) return 0; packed_word(); return 1;
        case CODES: codes(); return 1;
        case WALK: text("walk", leafbobbin_walk, len); return 1;
        case CALLER: text("caller", leafbobbin_caller, len); return 1;
    }
    return 0;
}

int main(void) {
    u8 head[4];
    while (fread(head, 1, 4, stdin) == 4) {
        size len = word(head);
        if (len > LONGEST || fread(request, 1, len, stdin) != len || !put(len)) return 1;
    }
    return 0;
}
