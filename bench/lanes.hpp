// Sums of table entries for 32 codes at a time, by vector instructions: what lanes.cpp and scan.cpp share.
#pragma once
#include <cstddef>
#include <cstdint>
#include <immintrin.h>

using Table = uint8_t[256];
struct Row { uint16_t word[32]; };

// 32 bytes, as one register of 32 or two of 16
#ifdef __AVX2__
struct V { __m256i a; };
static inline V splat(uint8_t x) { return {_mm256_set1_epi8((char)x)}; }
static inline V both(V x, V y) { return {_mm256_and_si256(x.a, y.a)}; }
static inline V adds(V x, V y) { return {_mm256_adds_epu8(x.a, y.a)}; }
static inline V top(V v, int shift) { return {_mm256_slli_epi16(v.a, shift)}; }
static inline V high_nibble(V v) { return {_mm256_and_si256(_mm256_srli_epi16(v.a, 4), _mm256_set1_epi8(15))}; }
static inline V blend(V mask, V low, V high) { return {_mm256_blendv_epi8(low.a, high.a, mask.a)}; }
static inline V look_up(const uint8_t* part, V v) {
    return {_mm256_shuffle_epi8(_mm256_broadcastsi128_si256(_mm_loadu_si128((const __m128i*)part)), v.a)};
}
static inline V field(const Row& row, int offset, int width) {
    const __m256i mask = _mm256_set1_epi16((short)((1 << width) - 1));
    const __m256i* p = (const __m256i*)row.word;
    __m256i x = _mm256_and_si256(_mm256_srli_epi16(_mm256_loadu_si256(p), offset), mask);
    __m256i y = _mm256_and_si256(_mm256_srli_epi16(_mm256_loadu_si256(p + 1), offset), mask);
    return {_mm256_permute4x64_epi64(_mm256_packus_epi16(x, y), 0xD8)};
}
// the lanes that are at most t
static inline uint32_t at_most(V v, uint8_t t) {
    __m256i most = _mm256_set1_epi8((char)t);
    return (uint32_t)_mm256_movemask_epi8(_mm256_cmpeq_epi8(_mm256_max_epu8(v.a, most), most));
}
static inline void store(uint8_t* into, V v) { _mm256_storeu_si256((__m256i*)into, v.a); }
#else
struct V { __m128i a, b; };
static inline V splat(uint8_t x) { __m128i v = _mm_set1_epi8((char)x); return {v, v}; }
static inline V both(V x, V y) { return {_mm_and_si128(x.a, y.a), _mm_and_si128(x.b, y.b)}; }
static inline V adds(V x, V y) { return {_mm_adds_epu8(x.a, y.a), _mm_adds_epu8(x.b, y.b)}; }
static inline V top(V v, int shift) { return {_mm_slli_epi16(v.a, shift), _mm_slli_epi16(v.b, shift)}; }
static inline V high_nibble(V v) {
    const __m128i low = _mm_set1_epi8(15);
    return {_mm_and_si128(_mm_srli_epi16(v.a, 4), low), _mm_and_si128(_mm_srli_epi16(v.b, 4), low)};
}
static inline V blend(V mask, V low, V high) {
    return {_mm_blendv_epi8(low.a, high.a, mask.a), _mm_blendv_epi8(low.b, high.b, mask.b)};
}
static inline V look_up(const uint8_t* part, V v) {
    __m128i t = _mm_loadu_si128((const __m128i*)part);
    return {_mm_shuffle_epi8(t, v.a), _mm_shuffle_epi8(t, v.b)};
}
static inline __m128i half(const __m128i* p, int offset, __m128i mask) {
    __m128i x = _mm_and_si128(_mm_srli_epi16(_mm_loadu_si128(p), offset), mask);
    __m128i y = _mm_and_si128(_mm_srli_epi16(_mm_loadu_si128(p + 1), offset), mask);
    return _mm_packus_epi16(x, y);
}
static inline V field(const Row& row, int offset, int width) {
    const __m128i mask = _mm_set1_epi16((short)((1 << width) - 1));
    const __m128i* p = (const __m128i*)row.word;
    return {half(p, offset, mask), half(p + 2, offset, mask)};
}
static inline uint32_t at_most(V v, uint8_t t) {
    __m128i most = _mm_set1_epi8((char)t);
    uint32_t low = (uint32_t)_mm_movemask_epi8(_mm_cmpeq_epi8(_mm_max_epu8(v.a, most), most));
    uint32_t high = (uint32_t)_mm_movemask_epi8(_mm_cmpeq_epi8(_mm_max_epu8(v.b, most), most));
    return low | high << 16;
}
static inline void store(uint8_t* into, V v) {
    _mm_storeu_si128((__m128i*)into, v.a);
    _mm_storeu_si128((__m128i*)into + 1, v.b);
}
#endif

// The entries of 2^W from `table` on at the low four bits of `low` and the bits of `v` above them.
template <int W> static inline V pick(const uint8_t* table, V v, V low) {
    if constexpr (W == 4) {
        return look_up(table, low);
    } else {
        return blend(top(v, 8 - W), pick<W - 1>(table, v, low), pick<W - 1>(table + (1 << (W - 1)), v, low));
    }
}

template <int W> static inline V add_field(V sum, const Table& table, V v) {
    return adds(sum, pick<W>(table, v, W == 4 ? v : both(v, splat(15))));
}

// Adds, up to 255, the entries that one word of each of 32 codes picks, and goes on to the tables of the next word. It is
// always inlined, since the scan is slower at v2 where the compiler chooses.
template <int A, int B, int C> [[gnu::always_inline]] static inline V add_word(V sum, const Table*& t, const Row& row) {
    if constexpr (A == 4) {
        V low = field(row, 0, 8), high = field(row, 8, 8);
        sum = add_field<4>(sum, *t++, both(low, splat(15)));
        sum = add_field<4>(sum, *t++, high_nibble(low));
        sum = add_field<4>(sum, *t++, both(high, splat(15)));
        sum = add_field<4>(sum, *t++, high_nibble(high));
    } else {
        sum = add_field<A>(sum, *t++, field(row, 0, A));
        sum = add_field<B>(sum, *t++, field(row, A, B));
        if constexpr (C > 0) sum = add_field<C>(sum, *t++, field(row, A + B, C));
    }
    return sum;
}
