// Residual books for bench/run_residual, from what clusters.cpp makes. The words DIR K name its folder, which has `base` and
// `book_K`, and into which go `residual_K_4444` and `residual_K_88`: books of version 2, scale 4 and 8 words a code, with the coarse
// words of `book_K`. Their other words are the centres, by k-means, of what is left of the first rows of `base` in their cells; a
// component of them is written 32768 higher.
#include <algorithm>
#include <cmath>
#include <cstdint>
#include <cstdio>
#include <cstdlib>
#include <string>
#include <vector>

constexpr size_t D = 128, H = 64, TRAINING = 20000, ROUNDS = 8;
constexpr int SCALE = 4;

static std::vector<uint8_t> first_bytes(const std::string& name, size_t most) {
    std::vector<uint8_t> bytes(most);
    FILE* file = fopen(name.c_str(), "rb");
    if (!file) return {};
    bytes.resize(fread(bytes.data(), 1, most, file));
    fclose(file);
    return bytes;
}

static float distance(const float* x, const float* y, size_t n) {
    float sum = 0;
    for (size_t i = 0; i < n; i++) sum += (x[i] - y[i]) * (x[i] - y[i]);
    return sum;
}

// what is left of a part of each row when its nearest coarse word is taken off
static void take_residuals(std::vector<float>& rows, size_t from, const std::vector<float>& coarse) {
    for (size_t row = 0; row < TRAINING; row++) {
        float* x = &rows[row * D + from];
        size_t nearest = 0;
        float least = distance(x, coarse.data(), H);
        for (size_t at = H; at < coarse.size(); at += H) {
            const float next = distance(x, &coarse[at], H);
            if (next < least) least = next, nearest = at;
        }
        for (size_t i = 0; i < H; i++) x[i] -= coarse[nearest + i];
    }
}

// the centres of n components of the rows, from a place on, by column
static std::vector<float> centres_of(const std::vector<float>& rows, size_t from, size_t n, size_t k) {
    std::vector<float> centres(k * n), distances(k);
    std::vector<double> sums(k * n), sizes(k);
    for (size_t c = 0; c < k; c++)
        for (size_t i = 0; i < n; i++) centres[i * k + c] = rows[TRAINING / k * c * D + from + i];
    for (size_t round = 0; round < ROUNDS; round++) {
        std::fill(sums.begin(), sums.end(), 0);
        std::fill(sizes.begin(), sizes.end(), 0);
        for (size_t row = 0; row < TRAINING; row++) {
            const float* x = &rows[row * D + from];
            std::fill(distances.begin(), distances.end(), 0.f);
            for (size_t i = 0; i < n; i++)
                for (size_t c = 0; c < k; c++) distances[c] += (x[i] - centres[i * k + c]) * (x[i] - centres[i * k + c]);
            const size_t nearest = size_t(std::min_element(distances.begin(), distances.end()) - distances.begin());
            sizes[nearest]++;
            for (size_t i = 0; i < n; i++) sums[i * k + nearest] += x[i];
        }
        for (size_t c = 0; c < k; c++)
            for (size_t i = 0; i < n; i++)
                if (sizes[c] > 0) centres[i * k + c] = float(sums[i * k + c] / sizes[c]);
    }
    return centres;
}

static void put(std::vector<uint8_t>& bytes, uint16_t number) {
    bytes.push_back(uint8_t(number & 255));
    bytes.push_back(uint8_t(number >> 8));
}

static void write_book(const std::string& name, size_t k, const std::vector<uint8_t>& coarse, const std::vector<float>& rows, uint8_t shape, size_t words) {
    const size_t subs = words == 16 ? 32 : 16, length = D / subs;
    std::vector<uint8_t> bytes{'A', 'D', 'C', 'B', 'O', 'O', 'K', '2'};
    for (size_t size : {D, H, k, k}) put(bytes, uint16_t(size));
    bytes.insert(bytes.end(), {shape, 8, uint8_t(SCALE)});
    for (size_t j = 0; j < subs; j++) put(bytes, uint16_t(length));
    for (uint8_t component : coarse) put(bytes, uint16_t(component << SCALE));
    for (size_t j = 0; j < subs; j++) {
        const std::vector<float> centres = centres_of(rows, j * length, length, words);
        for (size_t w = 0; w < words; w++)
            for (size_t i = 0; i < length; i++) put(bytes, uint16_t(32768 + lroundf(centres[i * words + w] * (1 << SCALE))));
    }
    FILE* file = fopen(name.c_str(), "wb");
    fwrite(bytes.data(), 1, bytes.size(), file);
    fclose(file);
}

int main(int count, char** words) {
    if (count < 3) return 1;
    const std::string folder = words[1], number = words[2];
    const size_t k = size_t(atoi(words[2]));
    const std::vector<uint8_t> book = first_bytes(folder + "/book_" + number, 1 << 22), base = first_bytes(folder + "/base", TRAINING * (D + 4));
    const std::vector<uint8_t> coarse(book.begin() + 18 + 2 * 32, book.begin() + 18 + 2 * 32 + long(2 * k * H));
    std::vector<float> rows(TRAINING * D), words_of_part(k * H);
    for (size_t row = 0; row < TRAINING; row++)
        for (size_t i = 0; i < D; i++) rows[row * D + i] = base[row * (D + 4) + 4 + i];
    for (size_t part = 0; part < 2; part++) {
        std::copy_n(coarse.begin() + long(part * k * H), k * H, words_of_part.begin());
        take_residuals(rows, part * H, words_of_part);
    }
    write_book(folder + "/residual_" + number + "_4444", k, coarse, rows, 0, 16);
    write_book(folder + "/residual_" + number + "_88", k, coarse, rows, 3, 256);
}
