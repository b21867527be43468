/* embed FILE: the listing of a report and the caller of its first frame, by the proved library (README, "In a program of yours"). */
#include <stddef.h>
#include <stdint.h>
#include <stdio.h>

/* crates/exports_c: the result is the text's length, also where the buffer is too short for it. */
size_t leafbobbin_walk(const uint8_t *report, size_t report_bytes, uint8_t *out, size_t out_bytes);
size_t leafbobbin_caller(const uint8_t *report, size_t report_bytes, uint8_t *out, size_t out_bytes);

int main(int argc, char **argv) {
    /* One byte more than the longest report, so that a longer one is refused and not cut. */
    static uint8_t report[65536 + 1], text[8192];
    FILE *file = argc == 2 ? fopen(argv[1], "rb") : NULL;
    if (!file) {
        fprintf(stderr, "usage: embed FILE\n");
        return 2;
    }
    size_t bytes = fread(report, 1, sizeof report, file);
    fclose(file);
    fwrite(text, 1, leafbobbin_walk(report, bytes, text, sizeof text), stdout);
    fwrite(text, 1, leafbobbin_caller(report, bytes, text, sizeof text), stdout);
    return 0;
}
