// Clustered vectors, and books over them, for bench/run_engine and bench/run_radius. The word DIR names a folder, into which go
// `base` (a million vectors of 128 bytes as bvecs), `queries` (a thousand more), and `book_64` and `book_256`: books of shape 4-4-4-4
// with 8 words a code and as many coarse words a part, by k-means. With a second word, 8-8, `book_256_8-8` goes there too, which is
// of that shape. Each vector is a point of one of 4,096 clusters, the first of which are chosen more often, in a space of 32 factors
// that is smooth over the components. All numbers come from one fixed seed.
#include <algorithm>
#include <cmath>
#include <cstdint>
#include <cstdio>
#include <string>
#include <vector>

constexpr int D = 128, FACTORS = 32, FAMILIES = 256, CLUSTERS = 4096;

static uint64_t state = 88172645463325252ull;

static uint32_t number() {
    state ^= state << 13;
    state ^= state >> 7;
    state ^= state << 17;
    return uint32_t(state >> 32);
}

// a number that is distributed about as by Gauss, as a sum of four
static float gauss() {
    const uint64_t a = number(), b = number();
    const long sum = long((a & 65535) + (a >> 16) + (b & 65535) + (b >> 16)) - 131070;
    return float(sum >> 9);
}

struct Model {
    float weights[D][FACTORS], centres[CLUSTERS][FACTORS], spreads[CLUSTERS];
    double chances[CLUSTERS];  // summed up

    // the components form a grid of 4 by 4 places with 8 directions, and neighbours of it are alike
    void fill_weights() {
        static float raw[4][4][8][FACTORS], turned[4][4][8][FACTORS];
        for (auto& row : raw) for (auto& place : row) for (auto& way : place) for (float& x : way) x = gauss();
        for (int i = 0; i < 4; i++) for (int j = 0; j < 4; j++) for (int k = 0; k < 8; k++) for (int l = 0; l < FACTORS; l++)
            turned[i][j][k][l] = 2 * raw[i][j][k][l] + raw[i][j][(k + 7) % 8][l] + raw[i][j][(k + 1) % 8][l];
        for (int i = 0; i < 4; i++) for (int j = 0; j < 4; j++) for (int k = 0; k < 8; k++) for (int l = 0; l < FACTORS; l++) {
            float x = 2 * turned[i][j][k][l];
            if (i > 0) x += turned[i - 1][j][k][l];
            if (i < 3) x += turned[i + 1][j][k][l];
            if (j > 0) x += turned[i][j - 1][k][l];
            if (j < 3) x += turned[i][j + 1][k][l];
            weights[(i * 4 + j) * 8 + k][l] = floorf(x / 8);
        }
    }

    Model() {
        fill_weights();
        static float families[FAMILIES][FACTORS];
        for (auto& family : families) for (float& x : family) x = gauss();
        for (auto& centre : centres) for (float& x : centre) x = 5 * gauss();
        for (auto& centre : centres) {
            const auto& family = families[number() % FAMILIES];
            for (int l = 0; l < FACTORS; l++) centre[l] += 6 * family[l];
        }
        double sum = 0;
        for (int r = 0; r < CLUSTERS; r++) {
            sum += 1e9 / (r + 20);
            chances[r] = sum;
            spreads[r] = 3 + number() % 8;
        }
    }

    void vector(uint8_t* into) const {
        const double chance = number() / 4294967296.0 * chances[CLUSTERS - 1];
        const int c = std::min(CLUSTERS - 1, int(std::upper_bound(chances, chances + CLUSTERS, chance) - chances));
        float z[FACTORS], y[D];
        for (int l = 0; l < FACTORS; l++) z[l] = 8 * centres[c][l] + 6 * spreads[c] * gauss();
        double squares = 0;
        for (int d = 0; d < D; d++) {
            float x = 0;
            for (int l = 0; l < FACTORS; l++) x += weights[d][l] * z[l];
            y[d] = floorf(std::max(x + 50.f * 16384 + 20.f * 128 * gauss(), 0.f) / 64);
            squares += double(y[d]) * y[d];
        }
        const float norm = float(512 / sqrt(squares > 0 ? squares : 1));
        for (int d = 0; d < D; d++) into[d] = uint8_t(std::min(255.f, floorf(y[d] * norm)));
    }
};

static std::vector<uint8_t> vectors(const Model& model, size_t count) {
    std::vector<uint8_t> all(count * D);
    for (size_t n = 0; n < count; n++) model.vector(&all[n * D]);
    return all;
}

// the centres of n components of the vectors, from a place on
static std::vector<uint8_t> centres_of(const std::vector<uint8_t>& all, int from, int n, int k, int rounds) {
    const size_t count = all.size() / D;
    std::vector<float> centres(size_t(k) * n), columns(size_t(k) * n), distances(k);
    std::vector<double> sums(size_t(k) * n);
    std::vector<int> sizes(k);
    for (int i = 0; i < k; i++) {
        const size_t row = number() % count;
        for (int j = 0; j < n; j++) centres[i * n + j] = all[row * D + from + j];
    }
    for (int round = 0; round < rounds; round++) {
        for (int i = 0; i < k; i++) for (int j = 0; j < n; j++) columns[j * k + i] = centres[i * n + j];
        std::fill(sums.begin(), sums.end(), 0);
        std::fill(sizes.begin(), sizes.end(), 0);
        for (size_t row = 0; row < count; row++) {
            const uint8_t* x = &all[row * D + from];
            std::fill(distances.begin(), distances.end(), 0.f);
            for (int j = 0; j < n; j++) for (int i = 0; i < k; i++) {
                const float gap = x[j] - columns[j * k + i];
                distances[i] += gap * gap;
            }
            const int nearest = int(std::min_element(distances.begin(), distances.end()) - distances.begin());
            sizes[nearest]++;
            for (int j = 0; j < n; j++) sums[size_t(nearest) * n + j] += x[j];
        }
        for (int i = 0; i < k; i++) for (int j = 0; j < n; j++) if (sizes[i] > 0) centres[i * n + j] = float(sums[size_t(i) * n + j] / sizes[i]);
    }
    std::vector<uint8_t> bytes(centres.size());
    for (size_t i = 0; i < bytes.size(); i++) bytes[i] = uint8_t(std::min(255.f, std::max(0.f, roundf(centres[i]))));
    return bytes;
}

static void write_vectors(const std::string& name, const std::vector<uint8_t>& all) {
    FILE* file = fopen(name.c_str(), "wb");
    const int32_t d = D;
    for (size_t n = 0; n < all.size() / D; n++) {
        fwrite(&d, 4, 1, file);
        fwrite(&all[n * D], 1, D, file);
    }
    fclose(file);
}

// so many words for each of so many sub-quantizers of equal length
static std::vector<std::vector<uint8_t>> subs_of(const std::vector<uint8_t>& training, int count, int words) {
    std::vector<std::vector<uint8_t>> subs;
    const int length = D / count;
    for (int j = 0; j < count; j++) subs.push_back(centres_of(training, length * j, length, words, 12));
    return subs;
}

static void write_book(const std::string& name, const std::vector<uint8_t>& training, uint8_t number, const std::vector<std::vector<uint8_t>>& subs, int k) {
    const auto coarse0 = centres_of(training, 0, 64, k, 10), coarse1 = centres_of(training, 64, 64, k, 10);
    FILE* file = fopen(name.c_str(), "wb");
    const uint16_t sizes[4] = {D, 64, uint16_t(k), uint16_t(k)}, length = uint16_t(D / subs.size());
    const uint8_t shape[2] = {number, 8};
    fwrite("ADCBOOK1", 1, 8, file);
    fwrite(sizes, 2, 4, file);
    fwrite(shape, 1, 2, file);
    for (size_t j = 0; j < subs.size(); j++) fwrite(&length, 2, 1, file);
    fwrite(coarse0.data(), 1, coarse0.size(), file);
    fwrite(coarse1.data(), 1, coarse1.size(), file);
    for (const auto& words : subs) fwrite(words.data(), 1, words.size(), file);
    fclose(file);
}

int main(int count, char** words) {
    if (count < 2) return 1;
    const std::string folder = words[1];
    static const Model model;
    const auto training = vectors(model, 60000);
    write_vectors(folder + "/base", vectors(model, 1000000));
    write_vectors(folder + "/queries", vectors(model, 1000));
    const auto subs = subs_of(training, 32, 16);
    for (int k : {64, 256}) write_book(folder + "/book_" + std::to_string(k), training, 0, subs, k);
    if (count > 2) write_book(folder + "/book_256_8-8", training, 3, subs_of(training, 16, 256), 256);
}
