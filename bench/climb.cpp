// Plays moves over levels of memory on the graph of a product of N by N matrices, by the rules of `climb` alone.
//
//     g++ -O2 -o climb bench/climb.cpp
//     ./climb make N CAPS > MOVES    a play that brings each operand up, computes, and sends each last value down
//     ./climb N MOVES CAPS           plays the moves
//
// CAPS are the capacities of the fast levels, joined by commas. It prints the lines that `iolb climb` prints of the same moves, or
// what it says where they are refused. For times beside it: `bin/iolb climb PRODUCT MOVES CAPS N=..`, where PRODUCT is
// crates/worked_calls/data/matmul.c.
#include <cstdint>
#include <cstdio>
#include <cstdlib>
#include <cstring>
#include <string>
#include <vector>

struct Graph {
    uint32_t instances, inputs;
    std::vector<uint32_t> preds;  // three places for each instance
    std::vector<uint8_t> count, last;
};

// C[i][j] += A[i][k] * B[k][j], in the order of the loops; inputs are numbered as they are first read.
static Graph product(uint32_t n) {
    Graph g;
    g.instances = n * n * n;
    g.inputs = 0;
    g.preds.resize(3 * size_t(g.instances));
    g.count.assign(g.instances, 0);
    g.last.assign(g.instances, 0);
    std::vector<int64_t> a(n * n, -1), b(n * n, -1), c(n * n, -1);
    auto read = [&](std::vector<int64_t> &cells, uint32_t cell, uint32_t v) {
        if (cells[cell] < 0) cells[cell] = g.instances + g.inputs++;
        g.preds[3 * size_t(v) + g.count[v]++] = cells[cell];
    };
    uint32_t v = 0;
    for (uint32_t i = 0; i < n; i++)
        for (uint32_t j = 0; j < n; j++)
            for (uint32_t k = 0; k < n; k++, v++) {
                read(c, i * n + j, v);
                read(a, i * n + k, v);
                read(b, k * n + j, v);
                c[i * n + j] = v;
                g.last[v] = k + 1 == n;
            }
    return g;
}

struct Move {
    char kind;
    uint8_t level;
    uint32_t vertex;
};

struct Tower {
    std::vector<std::vector<uint8_t>> levels;
    std::vector<uint64_t> counts, caps;
    std::vector<uint8_t> computed;
    Tower(const Graph &g, const std::vector<uint64_t> &caps)
        : levels(caps.size() + 1, std::vector<uint8_t>(g.instances + g.inputs)), counts(caps.size() + 1), caps(caps), computed(g.instances) {
        for (uint32_t v = 0; v < g.inputs; v++) levels[caps.size()][g.instances + v] = 1;
        counts[caps.size()] = g.inputs;
    }
    bool full(size_t at) const { return at < caps.size() && counts[at] >= caps[at]; }
    bool has(size_t at, uint32_t v) const { return levels[at][v]; }
    void put(size_t at, uint32_t v) { counts[at] += !levels[at][v], levels[at][v] = 1; }
    void take(size_t at, uint32_t v) { counts[at] -= levels[at][v], levels[at][v] = 0; }
    // 0, or the number of what refuses the move
    int apply(const Graph &g, Move m) {
        size_t fast = caps.size();
        if (m.vertex >= g.instances + g.inputs) return 8;
        if (m.kind != 'c' && (m.level < 1 || m.level > fast + (m.kind == 'd'))) return 7;
        size_t at = m.level - 1;
        switch (m.kind) {
        case 'b':
            if (!has(at + 1, m.vertex)) return 1;
            if (!has(at, m.vertex) && full(at)) return 5;
            put(at, m.vertex);
            return 0;
        case 's':
            if (!has(at, m.vertex)) return 2;
            if (!has(at + 1, m.vertex) && full(at + 1)) return 5;
            put(at + 1, m.vertex);
            return 0;
        case 'c':
            if (m.vertex >= g.instances) return 6;
            if (computed[m.vertex]) return 4;
            for (int i = 0; i < g.count[m.vertex]; i++)
                if (!has(0, g.preds[3 * size_t(m.vertex) + i])) return 3;
            if (full(0)) return 5;
            put(0, m.vertex);
            computed[m.vertex] = 1;
            return 0;
        default:
            if (!has(at, m.vertex)) return 2;
            take(at, m.vertex);
            return 0;
        }
    }
};

// The move of a line, or false where it is none.
static bool read_line(const char *&at, const char *end, Move &m) {
    static const char *words[] = {"bring ", "send ", "compute ", "drop "};
    for (const char *word : words) {
        size_t length = strlen(word);
        if (size_t(end - at) < length || memcmp(at, word, length) != 0) continue;
        const char *p = at + length;
        m.kind = word[0], m.level = 0;
        if (word[0] != 'c') {
            if (end - p < 2 || *p < '0' || *p > '9' || p[1] != ' ') return false;
            m.level = *p - '0';
            p += 2;
        }
        const char *first = p;
        uint64_t value = 0;
        while (p < end && *p >= '0' && *p <= '9' && value < (uint64_t(1) << 32)) value = 10 * value + (*p++ - '0');
        if (p == first || (*first == '0' && p != first + 1) || value >= (uint64_t(1) << 32) || p == end || *p != '\n') return false;
        m.vertex = value;
        at = p + 1;
        return true;
    }
    return false;
}

static std::vector<uint64_t> capacities(const char *text) {
    std::vector<uint64_t> caps;
    for (char *end; caps.push_back(strtoull(text, &end, 10)), *end == ','; text = end + 1) {}
    return caps;
}

static void make(uint32_t n, size_t fast) {
    Graph g = product(n);
    for (uint32_t v = 0; v < g.instances; v++) {
        const uint32_t *preds = &g.preds[3 * size_t(v)];
        for (int i = v % n ? 1 : 0; i < g.count[v]; i++)
            for (size_t level = fast; level >= 1; level--) {
                printf("bring %zu %u\n", level, preds[i]);
                if (level < fast) printf("drop %zu %u\n", level + 1, preds[i]);
            }
        printf("compute %u\n", v);
        for (int i = 0; i < g.count[v]; i++) printf("drop 1 %u\n", preds[i]);
        if (!g.last[v]) continue;
        for (size_t level = 1; level <= fast; level++) printf("send %zu %u\ndrop %zu %u\n", level, v, level, v);
    }
}

int main(int words, char **word) {
    if (words != 4) return 2;
    if (!strcmp(word[1], "make")) return make(atoi(word[2]), capacities(word[3]).size()), 0;
    Graph g = product(atoi(word[1]));
    std::vector<uint64_t> caps = capacities(word[3]);
    FILE *file = fopen(word[2], "rb");
    if (!file) return 5;
    fseek(file, 0, SEEK_END);
    std::string text(ftell(file), 0);
    rewind(file);
    if (fread(&text[0], 1, text.size(), file) != text.size()) return 5;
    std::vector<Move> moves;
    const char *at = text.data(), *end = at + text.size();
    for (Move m; at < end; moves.push_back(m))
        if (!read_line(at, end, m)) return printf("moves text refused: fault 1 at byte %zu\n", size_t(at - text.data())), 4;
    Tower tower(g, caps);
    std::vector<uint64_t> brings(256), sends(256);
    for (size_t i = 0; i < moves.size(); i++) {
        if (int illegal = tower.apply(g, moves[i])) return printf("illegal move %d at line %zu\n", illegal, i + 1), 1;
        brings[moves[i].level] += moves[i].kind == 'b', sends[moves[i].level] += moves[i].kind == 's';
    }
    for (uint32_t v = 0; v < g.instances; v++)
        if (!tower.computed[v] || (g.last[v] && !tower.has(caps.size(), v))) return printf("not complete: %u\n", v), 1;
    for (size_t i = 1; i <= caps.size(); i++)
        printf("boundary %zu brings %llu sends %llu\n", i, (unsigned long long)brings[i], (unsigned long long)sends[i]);
}
