// The words of a list by column, as crates/word_columns keeps them, and distances to all of them with vector
// instructions: |x|^2 + |w|^2 - 2 x w, the products by pmaddwd over pairs of components.
#pragma once
#include <immintrin.h>
#include <algorithm>
#include <cstddef>
#include <cstdint>
#include <cstring>
#include <vector>

#ifdef __AVX2__
using Lanes = __m256i;
static inline Lanes load(const void* p) { return _mm256_loadu_si256((const Lanes*)p); }
static inline void store(void* p, Lanes v) { _mm256_storeu_si256((Lanes*)p, v); }
static inline Lanes all32(int32_t x) { return _mm256_set1_epi32(x); }
static inline Lanes all64(int64_t x) { return _mm256_set1_epi64x(x); }
static inline Lanes add32(Lanes a, Lanes b) { return _mm256_add_epi32(a, b); }
static inline Lanes add64(Lanes a, Lanes b) { return _mm256_add_epi64(a, b); }
static inline Lanes sub64(Lanes a, Lanes b) { return _mm256_sub_epi64(a, b); }
static inline Lanes up64(Lanes a, __m128i by) { return _mm256_sll_epi64(a, by); }
static inline Lanes pair_products(Lanes a, Lanes b) { return _mm256_madd_epi16(a, b); }
static inline Lanes low64(Lanes v) { return _mm256_cvtepi32_epi64(_mm256_castsi256_si128(v)); }
static inline Lanes high64(Lanes v) { return _mm256_cvtepi32_epi64(_mm256_extracti128_si256(v, 1)); }
static inline Lanes lesser64(Lanes a, Lanes b) { return _mm256_blendv_epi8(a, b, _mm256_cmpgt_epi64(a, b)); }
#else
using Lanes = __m128i;
static inline Lanes load(const void* p) { return _mm_loadu_si128((const Lanes*)p); }
static inline void store(void* p, Lanes v) { _mm_storeu_si128((Lanes*)p, v); }
static inline Lanes all32(int32_t x) { return _mm_set1_epi32(x); }
static inline Lanes all64(int64_t x) { return _mm_set1_epi64x(x); }
static inline Lanes add32(Lanes a, Lanes b) { return _mm_add_epi32(a, b); }
static inline Lanes add64(Lanes a, Lanes b) { return _mm_add_epi64(a, b); }
static inline Lanes sub64(Lanes a, Lanes b) { return _mm_sub_epi64(a, b); }
static inline Lanes up64(Lanes a, __m128i by) { return _mm_sll_epi64(a, by); }
static inline Lanes pair_products(Lanes a, Lanes b) { return _mm_madd_epi16(a, b); }
static inline Lanes low64(Lanes v) { return _mm_cvtepi32_epi64(v); }
static inline Lanes high64(Lanes v) { return _mm_cvtepi32_epi64(_mm_srli_si128(v, 8)); }
static inline Lanes lesser64(Lanes a, Lanes b) { return _mm_blendv_epi8(a, b, _mm_cmpgt_epi64(a, b)); }
#endif

struct Columns {
    static constexpr size_t BLOCK = 16, WIDE = sizeof(Lanes) / 4, PARTS = BLOCK / WIDE;
    uint32_t count;
    size_t size, pairs;
    std::vector<uint16_t> components;
    std::vector<int64_t> norms;

    Columns(const uint16_t* rows, uint32_t count, size_t size) : count(count), size(size), pairs((size + 1) / 2) {
        size_t blocks = (count + BLOCK - 1) / BLOCK;
        components.assign(blocks * pairs * 2 * BLOCK, 32768);
        norms.assign(blocks * BLOCK, 0);
        for (size_t w = 0; w < count; w++)
            for (size_t i = 0; i < size; i++) {
                uint16_t c = rows[w * size + i];
                components[(w / BLOCK * pairs + i / 2) * 2 * BLOCK + w % BLOCK * 2 + i % 2] = c ^ 32768;
                norms[w] += int64_t(c) * c;
            }
    }

    // `into` has room for whole blocks
    void distances(unsigned scale, const uint8_t* x, uint64_t* into) const {
        if (size == 4) return blocks_of<4>(scale, x, into);
        if (size == 8) return blocks_of<8>(scale, x, into);
        blocks_of<0>(scale, x, into);
    }

    uint32_t nearest(unsigned scale, const uint8_t* x) const {
        alignas(32) uint64_t room[1024];
        distances(scale, x, room);
        if (count <= BLOCK) return std::min_element(room, room + count) - room;
        Lanes least[4], places[4], step = all64(4 * WIDE / 2);
        alignas(32) int64_t lanes[2 * WIDE];
        size_t whole = count / (2 * WIDE) * (2 * WIDE);
        for (size_t k = 0; k < 4; k++) {
            for (size_t i = 0; i < WIDE / 2; i++) lanes[i] = k * (WIDE / 2) + i;
            places[k] = load(lanes);
            least[k] = all64(INT64_MAX);
        }
        for (size_t w = 0; w < whole; w += 2 * WIDE)
            for (size_t k = 0; k < 4; k++) {
                Lanes d = load(room + w + k * (WIDE / 2));
                least[k] = lesser64(least[k], add64(up64(d, _mm_cvtsi32_si128(10)), places[k]));
                places[k] = add64(places[k], step);
            }
        store(lanes, lesser64(lesser64(least[0], least[1]), lesser64(least[2], least[3])));
        int64_t best = *std::min_element(lanes, lanes + WIDE / 2);
        for (size_t w = whole; w < count; w++) best = std::min(best, int64_t(room[w] << 10 | w));
        return best & 1023;
    }

private:
    template <size_t SIZE>
    __attribute__((noinline)) void blocks_of(unsigned scale, const uint8_t* x, uint64_t* into) const {
        const size_t n = SIZE ? SIZE : size, all = (n + 1) / 2;
        uint32_t turned[512];
        uint64_t squares = 0, total = 0;
        for (size_t p = 0; p < n / 2; p++) turned[p] = x[2 * p] | uint32_t(x[2 * p + 1]) << 16;
        if (n % 2) turned[n / 2] = x[n - 1];
        for (size_t i = 0; i < n; i++) {
            squares += uint32_t(x[i]) * x[i];
            total += x[i];
        }
        Lanes base = all64(int64_t((squares << (2 * scale)) - (total << (16 + scale))));
        __m128i by = _mm_cvtsi32_si128(scale + 1);
        const uint16_t* q = components.data();
        for (size_t w = 0; w < norms.size(); w += BLOCK) {
            Lanes low[PARTS], high[PARTS];
            for (size_t k = 0; k < PARTS; k++) {
                low[k] = add64(base, load(&norms[w + k * WIDE]));
                high[k] = add64(base, load(&norms[w + k * WIDE + WIDE / 2]));
            }
            for (size_t p = 0; p < all;) {
                size_t end = std::min(all, p + 128);
                Lanes sums[PARTS];
                for (auto& s : sums) s = all32(0);
                for (; p < end; p++, q += 2 * BLOCK)
                    for (size_t k = 0; k < PARTS; k++) sums[k] = add32(sums[k], pair_products(all32(turned[p]), load(q + 2 * k * WIDE)));
                for (size_t k = 0; k < PARTS; k++) {
                    low[k] = sub64(low[k], up64(low64(sums[k]), by));
                    high[k] = sub64(high[k], up64(high64(sums[k]), by));
                }
            }
            for (size_t k = 0; k < PARTS; k++) {
                store(into + w + k * WIDE, low[k]);
                store(into + w + k * WIDE + WIDE / 2, high[k]);
            }
        }
    }
};
