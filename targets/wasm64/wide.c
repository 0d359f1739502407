/* Products and shifts of 128 bits, which the compiler calls for WebAssembly and the kit has for x86-64 alone. Not proved. */
typedef unsigned long u64;
typedef unsigned __int128 u128;

/* In the order of this machine, the low half first. */
union wide {
    u128 all;
    struct {
        u64 low, high;
    } half;
};

static u128 wide_of(u64 low, u64 high)
{
    union wide wide = {.half = {low, high}};
    return wide.all;
}

/* The product of two numbers of 64 bits, by halves of 32. */
static union wide product(u64 x, u64 y)
{
    const u64 mask = 0xffffffff;
    u64 low = (x & mask) * (y & mask), left = (x >> 32) * (y & mask), right = (x & mask) * (y >> 32);
    u64 middle = (low >> 32) + (left & mask) + (right & mask);
    u64 high = (x >> 32) * (y >> 32) + (left >> 32) + (right >> 32) + (middle >> 32);
    union wide wide = {.half = {(low & mask) | middle << 32, high}};
    return wide;
}

u128 __multi3(u128 x, u128 y)
{
    union wide a = {x}, b = {y}, made = product(a.half.low, b.half.low);
    made.half.high += a.half.high * b.half.low + a.half.low * b.half.high;
    return made.all;
}

/* Shifts by 0 to 127 bits. */
u128 __ashlti3(u128 x, int many)
{
    union wide a = {x};
    if (many == 0)
        return x;
    if (many >= 64)
        return wide_of(0, a.half.low << (many - 64));
    return wide_of(a.half.low << many, a.half.high << many | a.half.low >> (64 - many));
}

u128 __lshrti3(u128 x, int many)
{
    union wide a = {x};
    if (many == 0)
        return x;
    if (many >= 64)
        return wide_of(a.half.high >> (many - 64), 0);
    return wide_of(a.half.low >> many | a.half.high << (64 - many), a.half.high >> many);
}
