// The same rows in plain C, with the same operands in the same order, printed alike.
#include <stdint.h>
#include <stdio.h>
#include <time.h>

typedef unsigned __int128 u128;
typedef __int128 i128;
typedef struct { uint8_t width; u128 value; } Bits;

enum { Add, Sub, Mul, AddSatU, SubSatU, AddSatS, SubSatS, And, Or, Xor, Not, Neg, Shl, ShrU, ShrS, Cat, Eq, LtU, LeU, LtS, LeS };
static const char *names[] = { "Add", "Sub", "Mul", "AddSatU", "SubSatU", "AddSatS", "SubSatS", "And", "Or", "Xor", "Not", "Neg", "Shl",
                               "ShrU", "ShrS", "Cat", "Eq", "LtU", "LeU", "LtS", "LeS" };
enum { STEPS = 4000000 };

static u128 greatest(uint8_t w) { return ~(u128)0 >> (128 - w); }
static Bits cut(uint8_t w, u128 v) { return (Bits){ w, v & greatest(w) }; }
static i128 read_signed(Bits a) { return (i128)(a.value << (128 - a.width)) >> (128 - a.width); }
static Bits truth(int t) { return (Bits){ 1, t }; }

static Bits clamp_signed(uint8_t w, i128 z, int over, int negative) {
    i128 top = (i128)(greatest(w) >> 1), bottom = -top - 1;
    if (over) return cut(w, (u128)(negative ? bottom : top));
    return cut(w, (u128)(z > top ? top : z < bottom ? bottom : z));
}

static inline __attribute__((always_inline)) Bits apply(int op, Bits a, Bits b) {
    uint8_t w = a.width;
    u128 x = a.value, y = b.value;
    i128 z;
    switch (op) {
    case Add: return cut(w, x + y);
    case Sub: return cut(w, x - y);
    case Mul: return cut(w, x * y);
    case AddSatU: { u128 s = x + y; if (s < x) s = ~(u128)0; u128 g = greatest(w); return (Bits){ w, s < g ? s : g }; }
    case SubSatU: return (Bits){ w, x < y ? 0 : x - y };
    case AddSatS: { int over = __builtin_add_overflow(read_signed(a), read_signed(b), &z); return clamp_signed(w, z, over, read_signed(a) < 0); }
    case SubSatS: { int over = __builtin_sub_overflow(read_signed(a), read_signed(b), &z); return clamp_signed(w, z, over, read_signed(a) < 0); }
    case And: return (Bits){ w, x & y };
    case Or: return (Bits){ w, x | y };
    case Xor: return (Bits){ w, x ^ y };
    case Not: return cut(w, ~x);
    case Neg: return cut(w, -x);
    case Shl: return y < w ? cut(w, x << (int)y) : (Bits){ w, 0 };
    case ShrU: return (Bits){ w, y < w ? x >> (int)y : 0 };
    case ShrS: return cut(w, (u128)(read_signed(a) >> (y < w ? (int)y : w - 1)));
    case Cat: return (Bits){ w + b.width, x << b.width | y };
    case Eq: return truth(x == y);
    case LtU: return truth(x < y);
    case LeU: return truth(x <= y);
    case LtS: return truth(read_signed(a) < read_signed(b));
    default: return truth(read_signed(a) <= read_signed(b));
    }
}

static inline __attribute__((always_inline)) u128 fold(int op, uint8_t width, uint8_t second) {
    u128 state = (u128)0x9e3779b97f4a7c15 << 64 | 0xf39cc0605cedc835;
    for (int step = 0; step < STEPS; step++)
        state = state * 0x5851f42d4c957f2d + (apply(op, cut(width, state), cut(second, state >> 37)).value ^ 0x14057b7ef767814f);
    return state;
}

static void time_row(int op, int width) {
    struct timespec from, to;
    u128 state = 0;
    clock_gettime(CLOCK_MONOTONIC, &from);
    switch (op) {
#define ROW(of, second) case of: state = fold(of, width, second); break;
    ROW(Add, width) ROW(Sub, width) ROW(Mul, width) ROW(AddSatU, width) ROW(SubSatU, width) ROW(AddSatS, width) ROW(SubSatS, width)
    ROW(And, width) ROW(Or, width) ROW(Xor, width) ROW(Not, width) ROW(Neg, width) ROW(Shl, 7) ROW(ShrU, 7) ROW(ShrS, 7)
    ROW(Cat, width) ROW(Eq, width) ROW(LtU, width) ROW(LeU, width) ROW(LtS, width) ROW(LeS, width)
    }
    clock_gettime(CLOCK_MONOTONIC, &to);
    long long time = (to.tv_sec - from.tv_sec) * 1000000000LL + to.tv_nsec - from.tv_nsec;
    printf("%s %d %lld ", names[op], width, time);
    if (state >> 64) printf("%llx%016llx\n", (unsigned long long)(state >> 64), (unsigned long long)state);
    else printf("%llx\n", (unsigned long long)state);
}

int main(void) {
    for (int width = 64; width <= 128; width += 64)
        for (int op = Add; op <= LeS; op++)
            if (op != Cat || width == 64) time_row(op, width);
    return 0;
}
