// Cuts standard input into words as `wc` does, by a table of classes, and counts words, lines and signs. It prints the
// nanoseconds of the fastest of ten passes, and the counts.
#include <stdint.h>
#include <stdio.h>
#include <stdlib.h>
#include <time.h>

enum { LONGEST = 16000000, PASSES = 10 };

enum class { BLANK, NAME, OTHER };

static uint64_t now(void) {
    struct timespec t;
    clock_gettime(CLOCK_MONOTONIC, &t);
    return (uint64_t)t.tv_sec * 1000000000 + (uint64_t)t.tv_nsec;
}

int main(void) {
    static unsigned char text[LONGEST], class_of[256];
    size_t len = fread(text, 1, LONGEST, stdin);
    for (int c = 0; c < 256; c++)
        class_of[c] = c == ' ' || (c >= '\t' && c <= '\r') ? BLANK
            : c == '_' || (c >= '0' && c <= '9') || (c >= 'A' && c <= 'Z') || (c >= 'a' && c <= 'z') ? NAME
            : OTHER;
    uint64_t fastest = UINT64_MAX;
    size_t words = 0, lines = 0, signs = 0;
    for (int pass = 0; pass < PASSES; pass++) {
        uint64_t start = now();
        unsigned before = BLANK;
        words = lines = signs = 0;
        for (size_t i = 0; i < len; i++) {
            unsigned class = class_of[text[i]];
            words += class == NAME && before != NAME;
            signs += class == OTHER;
            lines += text[i] == '\n';
            before = class;
        }
        uint64_t time = now() - start;
        if (time < fastest)
            fastest = time;
    }
    printf("%llu %zu words, %zu signs, %zu lines\n", (unsigned long long)fastest, words, signs, lines);
    return 0;
}
