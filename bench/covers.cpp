// Whether the least cover of a projective program can be too fine for `bound`.
//
//     g++ -O2 -o covers bench/covers.cpp && ./covers
//
// An array is the set of the loops that stand in its reference: one to four of at most six loops. For all families of at most six
// different sets that cover the loops, up to the order of loops and sets, it looks for the least denominator q of at most 12 over
// which the least cover and the greatest packing have the same total, of at most 24. It prints each family that has none, and how
// many families have which q. (Sets that stand twice, and empty ones, change neither total.)
#include <algorithm>
#include <array>
#include <cstdio>
#include <map>
#include <numeric>
#include <set>
#include <vector>

using Family = std::vector<int>;
const int LOOPS = 6, SETS = 6, SUBSCRIPTS = 4, MOST_Q = 12, MOST_TOTAL = 24;

// Where loops go, for every order of so many loops: the set that each set becomes.
std::vector<std::vector<int>> orders(int loops) {
    std::vector<int> order(loops);
    std::iota(order.begin(), order.end(), 0);
    std::vector<std::vector<int>> all;
    do {
        std::vector<int> moved(1 << loops);
        for (int set = 0; set < 1 << loops; set++)
            for (int loop = 0; loop < loops; loop++)
                if (set >> loop & 1) moved[set] |= 1 << order[loop];
        all.push_back(moved);
    } while (std::next_permutation(order.begin(), order.end()));
    return all;
}

// The first of a family's forms in all orders.
Family first_form(const Family &family, const std::vector<std::vector<int>> &all) {
    Family first;
    for (const auto &moved : all) {
        Family form;
        for (int set : family) form.push_back(moved[set]);
        std::sort(form.begin(), form.end());
        if (first.empty() || form < first) first = form;
    }
    return first;
}

// The least total, below `least`, of weights of the sets from one on that give each loop what it still needs.
void cover(const Family &family, size_t set, int total, std::array<int, LOOPS> need, int &least) {
    if (total >= least) return;
    if (std::all_of(need.begin(), need.end(), [](int n) { return n <= 0; })) { least = total; return; }
    if (set == family.size()) return;
    int most = 0;
    for (int loop = 0; loop < LOOPS; loop++)
        if (family[set] >> loop & 1) most = std::max(most, need[loop]);
    for (int weight = 0; weight <= most; weight++) {
        auto left = need;
        for (int loop = 0; loop < LOOPS; loop++)
            if (family[set] >> loop & 1) left[loop] -= weight;
        cover(family, set + 1, total + weight, left, least);
    }
}

// The greatest total, above `greatest`, of amounts at the loops from one on that fit into the room of each set.
void pack(const Family &family, int loops, int loop, int q, int total, std::array<int, SETS> room, int &greatest) {
    if (total + (loops - loop) * q <= greatest) return;
    if (loop == loops) { greatest = total; return; }
    int most = q;
    for (size_t set = 0; set < family.size(); set++)
        if (family[set] >> loop & 1) most = std::min(most, room[set]);
    for (int amount = most; amount >= 0; amount--) {
        auto left = room;
        for (size_t set = 0; set < family.size(); set++)
            if (family[set] >> loop & 1) left[set] -= amount;
        pack(family, loops, loop + 1, q, total + amount, left, greatest);
    }
}

// The least denominator in reach and its total, or 0 and 0.
std::pair<int, int> least_in_reach(const Family &family, int loops) {
    for (int q = 1; q <= MOST_Q; q++) {
        std::array<int, LOOPS> need{};
        std::fill_n(need.begin(), loops, q);
        std::array<int, SETS> room;
        room.fill(q);
        int least = 1 << 30, greatest = -1;
        cover(family, 0, 0, need, least);
        pack(family, loops, 0, q, 0, room, greatest);
        if (least == greatest && least <= MOST_TOTAL) return {q, least};
    }
    return {0, 0};
}

int main() {
    std::map<int, long> counts;
    long families = 0;
    int greatest_total = 0;
    for (int loops = 1; loops <= LOOPS; loops++) {
        const auto all = orders(loops);
        std::set<Family> level = {{}};
        for (int size = 1; size <= SETS; size++) {
            std::set<Family> next;
            for (const auto &family : level)
                for (int set = 1; set < 1 << loops; set++)
                    if (__builtin_popcount(set) <= SUBSCRIPTS && std::find(family.begin(), family.end(), set) == family.end()) {
                        Family more = family;
                        more.push_back(set);
                        next.insert(first_form(more, all));
                    }
            level.swap(next);
            for (const auto &family : level) {
                if (std::accumulate(family.begin(), family.end(), 0, [](int a, int b) { return a | b; }) != (1 << loops) - 1) continue;
                const auto [q, total] = least_in_reach(family, loops);
                families++;
                counts[q]++;
                greatest_total = std::max(greatest_total, total);
                if (q == 0) std::printf("too fine: %d loops, %zu sets\n", loops, family.size());
            }
        }
    }
    std::printf("families %ld, too fine %ld, greatest total %d\n", families, counts[0], greatest_total);
    for (const auto &[q, count] : counts)
        if (q > 0) std::printf("q %d: %ld\n", q, count);
}
