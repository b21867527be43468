// calls walk|caller|none: calls a proved function of crates/exports_c on each report of standard input, which has its length before it. With
// `none`, which counts what reading costs, it calls nothing proved.

#include "../tests/libc.h"

enum { LONGEST = 65536, ROOM = 8192 };

typedef size text(const u8 *report, size report_bytes, u8 *out, size out_bytes);

text leafbobbin_walk, leafbobbin_caller;

static size none(const u8 *report, size report_bytes, u8 *out, size out_bytes) {
    (void)report, (void)report_bytes, (void)out, (void)out_bytes;
    return 0;
}

static u32 word(const u8 *p) { return p[0] | (u32)p[1] << 8 | (u32)p[2] << 16 | (u32)p[3] << 24; }

int main(int argc, char **argv) {
    static u8 report[LONGEST], out[ROOM];
    u8 head[4];
    if (argc != 2) return 2;
    text *call = *argv[1] == 'w' ? leafbobbin_walk : *argv[1] == 'c' ? leafbobbin_caller : none;
    size bytes = 0;
    while (fread(head, 1, 4, stdin) == 4) {
        size len = word(head);
        if (len > LONGEST || fread(report, 1, len, stdin) != len) return 1;
        bytes += call(report, len, out, ROOM);
    }
    printf("%lu\n", bytes);
    return 0;
}
