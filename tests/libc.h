/* What the C programs here and in bench/ use of the C library: the toolchain that compiles them (bin/build-c) has no headers. */
typedef unsigned char u8;
typedef unsigned u32;
typedef unsigned long long u64;
typedef unsigned long size;
typedef struct _IO_FILE FILE;
extern FILE *stdin, *stdout;
size fread(void *, size, size, FILE *);
size fwrite(const void *, size, size, FILE *);
int fflush(FILE *);
int printf(const char *, ...);
void *memset(void *, int, size);
int memcmp(const void *, const void *, size);
