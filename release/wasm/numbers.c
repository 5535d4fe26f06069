// The functions that LLVM calls for whole numbers of 128 bits, as in its own library, which the toolchain lacks. They compute with
// numbers of 64 bits, because LLVM would turn anything wider into a call of the same function.

typedef unsigned long long word;
typedef union {
    unsigned __int128 whole;
    struct {
        word low, high;
    };
} pair;

// The product of two numbers, from the products of their halves.
unsigned __int128 __multi3(unsigned __int128 x, unsigned __int128 y) {
    pair a = {x}, b = {y}, product;
    word a0 = (unsigned)a.low, a1 = a.low >> 32, b0 = (unsigned)b.low, b1 = b.low >> 32;
    word first = a0 * b0, second = a1 * b0 + (first >> 32), third = a0 * b1 + (unsigned)second;
    product.low = third << 32 | (unsigned)first;
    product.high = a1 * b1 + (second >> 32) + (third >> 32) + a.low * b.high + a.high * b.low;
    return product.whole;
}

unsigned __int128 __ashlti3(unsigned __int128 x, int n) {
    pair a = {x}, moved;
    int by = n & 63;
    moved.low = n & 64 ? 0 : a.low << by;
    // Two shifts, because one by 64 bits is not defined.
    moved.high = n & 64 ? a.low << by : a.high << by | a.low >> 1 >> (63 - by);
    return moved.whole;
}

unsigned __int128 __lshrti3(unsigned __int128 x, int n) {
    pair a = {x}, moved;
    int by = n & 63;
    moved.high = n & 64 ? 0 : a.high >> by;
    moved.low = n & 64 ? a.high >> by : a.low >> by | a.high << 1 << (63 - by);
    return moved.whole;
}
