/* The functions of hound.h in C99 (and C++11), for computers that bindings/lib has no library for.
   scripts/portable/convert.py makes this file from the proved module hound_c.wasm, whose sha256 is
   @MODULE@: don't edit it.
     cc -O3 -c bindings/c/hound_c.c

   Numbers are the module's: an i32 is a uint32_t, an i64 or an address a uint64_t, and an address is
   one of this process. No call allocates or keeps a state, and a call takes at most @GREATEST@ bytes of
   stack for the module's own frames. */
#include <float.h>

/* hound.h without its comments and its inline function. */
@HEADER@

#if (defined(__BYTE_ORDER__) && defined(__ORDER_LITTLE_ENDIAN__) && __BYTE_ORDER__ != __ORDER_LITTLE_ENDIAN__) \
    || defined(__BIG_ENDIAN__)
#error "hound_c.c is for little-endian processors"
#endif
#if defined(__FAST_MATH__) || defined(_M_FP_FAST)
#error "hound_c.c needs floats as they are: compile it without -ffast-math"
#endif
#if FLT_RADIX != 2 || FLT_MANT_DIG != 24 || DBL_MANT_DIG != 53
#error "hound_c.c needs the floats of IEEE 754"
#endif
#if FLT_EVAL_METHOD < 0 || FLT_EVAL_METHOD == 2
#error "hound_c.c needs floats as they are stored: on x86 of 32 bits, compile it with -msse2 -mfpmath=sse"
#endif
#ifdef __CHERI_PURE_CAPABILITY__
#error "hound_c.c computes with addresses, which are no capabilities"
#endif

#define AT(address) ((void *)(uintptr_t)(address))
#ifdef __GNUC__
#define COPY __builtin_memcpy
#define MOVE(to, from, count) __builtin_memmove(AT(to), AT(from), (size_t)(count))
#define FILL(to, byte, count) __builtin_memset(AT(to), (int)((byte) & 255), (size_t)(count))
#define TRAP() __builtin_trap()
#else
#include <stdlib.h>
#include <string.h>
#define COPY memcpy
#define MOVE(to, from, count) memmove(AT(to), AT(from), (size_t)(count))
#define FILL(to, byte, count) memset(AT(to), (int)((byte) & 255), (size_t)(count))
#define TRAP() for (;;) abort()
#endif

/* The module's constants. */
static const uint8_t data[@LENGTH@] = {
    @BYTES@};
#define DATA(place) ((uint64_t)(uintptr_t)(data + (place)))

/* The module's stack for one call: `sp` is its end, a multiple of 16. */
#define STACK(bytes)                 \
    uint64_t stack[(bytes) / 8 + 2]; \
    const uint64_t sp = ((uint64_t)(uintptr_t)stack + (bytes) + 15) & ~15ull

static inline uint32_t load8(uint64_t at) { return *(const uint8_t *)AT(at); }
static inline uint32_t load16(uint64_t at) { uint16_t x; COPY(&x, AT(at), 2); return x; }
static inline uint32_t load32(uint64_t at) { uint32_t x; COPY(&x, AT(at), 4); return x; }
static inline uint64_t load64(uint64_t at) { uint64_t x; COPY(&x, AT(at), 8); return x; }
static inline float load_f32(uint64_t at) { float x; COPY(&x, AT(at), 4); return x; }
static inline double load_f64(uint64_t at) { double x; COPY(&x, AT(at), 8); return x; }
static inline void store8(uint64_t at, uint32_t value) { *(uint8_t *)AT(at) = (uint8_t)(value & 255); }
static inline void store16(uint64_t at, uint32_t value) { uint16_t x = (uint16_t)(value & 65535); COPY(AT(at), &x, 2); }
static inline void store32(uint64_t at, uint32_t value) { COPY(AT(at), &value, 4); }
static inline void store64(uint64_t at, uint64_t value) { COPY(AT(at), &value, 8); }
static inline void store_f32(uint64_t at, float value) { COPY(AT(at), &value, 4); }
static inline void store_f64(uint64_t at, double value) { COPY(AT(at), &value, 8); }

static inline int32_t s32(uint32_t x) { int32_t y; COPY(&y, &x, 4); return y; }
static inline int64_t s64(uint64_t x) { int64_t y; COPY(&y, &x, 8); return y; }
static inline uint64_t bits_of(double x) { uint64_t y; COPY(&y, &x, 8); return y; }
static inline double f64_of(uint64_t x) { double y; COPY(&y, &x, 8); return y; }
static inline float f32_of(uint32_t x) { float y; COPY(&y, &x, 4); return y; }
static inline double neg_f64(double x) { return f64_of(bits_of(x) ^ 0x8000000000000000ull); }
static inline float neg_f32(float x) { uint32_t y; COPY(&y, &x, 4); y ^= 0x80000000u; COPY(&x, &y, 4); return x; }
static inline uint32_t extend8(uint32_t x) {
    uint8_t y = (uint8_t)(x & 255);
    int8_t z;
    COPY(&z, &y, 1);
    return (uint32_t)z;
}
static inline uint32_t extend16(uint32_t x) {
    uint16_t y = (uint16_t)(x & 65535);
    int16_t z;
    COPY(&z, &y, 2);
    return (uint32_t)z;
}
static inline uint32_t shr_s32(uint32_t x, uint32_t by) { return x >> 31 ? ~(~x >> by) : x >> by; }
static inline uint64_t clz64(uint64_t x) {
#ifdef __GNUC__
    return x == 0 ? 64 : (uint64_t)__builtin_clzll(x);
#else
    uint64_t zeros = 0;
    while (zeros < 64 && (x >> (63 - zeros)) == 0) zeros++;
    return zeros;
#endif
}
/* A cast of a number past the ends of the type would be undefined. */
static inline uint64_t trunc64(double x) {
    const double end = 9223372036854775808.0;
    return (uint64_t)(x >= end ? INT64_MAX : x >= -end ? (int64_t)x : x != x ? 0 : INT64_MIN);
}
static inline uint32_t div32(uint32_t x, uint32_t y) { if (y == 0) TRAP(); return x / y; }
static inline uint32_t rem32(uint32_t x, uint32_t y) { if (y == 0) TRAP(); return x % y; }
static inline uint64_t div64(uint64_t x, uint64_t y) { if (y == 0) TRAP(); return x / y; }
static inline uint64_t rem64(uint64_t x, uint64_t y) { if (y == 0) TRAP(); return x % y; }
