// What a program can ask valgrind, as functions that a Rust driver links. Without valgrind's header each says that it isn't there.
#include <stddef.h>
#if __has_include(<valgrind/memcheck.h>)
#include <valgrind/memcheck.h>
#else
#define RUNNING_ON_VALGRIND 0
#define VALGRIND_GET_VBITS(at, bits, len) 0
#define VALGRIND_COUNT_ERRORS 0
#endif

int hard_is_on_valgrind(void) { return RUNNING_ON_VALGRIND != 0; }

// A bit is 1 where the bit of memory has never been written. Answers 1 where the bits could be told.
int hard_undefined_bits(const void *at, unsigned char *bits, size_t len) {
    (void)at, (void)bits, (void)len;
    return VALGRIND_GET_VBITS(at, bits, len);
}

size_t hard_errors(void) { return VALGRIND_COUNT_ERRORS; }
