// What bench/hists measures beside histograms, in C++: a std::unordered_map from keys to a count and a sum, and its entries, sorted and printed.
//
//     hists n KEYS HITS              counts rows of so many keys by turns, so often, after each was counted once; the key is a number of a row
//     hists name KEYS HITS           the same, the key being a string of a row
//     hists common_pid KEYS HITS     the same of one row, the key being a number beside it
//     prints ENTRIES COUNT           sorts and prints so many entries, so often
//
// Rows and lines are those of bench/crate, and so is what is said at the end.
#include <algorithm>
#include <cstdint>
#include <cstdio>
#include <cstdlib>
#include <cstring>
#include <string>
#include <unordered_map>
#include <utility>
#include <vector>

template <class Key> struct Row {
    Key key;
    uint64_t m;
};

struct Tally {
    uint64_t hitcount = 0;
    uint64_t sum = 0;
};

template <class Key> using Table = std::unordered_map<Key, Tally>;

static void make_key(uint64_t number, uint64_t &key) {
    key = number;
}

static void make_key(uint64_t number, std::string &key) {
    char name[32];
    snprintf(name, sizeof name, "worker/%06lu", number);
    key = name;
}

template <class Key> static std::vector<Row<Key>> rows_of(uint64_t keys) {
    std::vector<Row<Key>> rows(keys);
    for (uint64_t number = 0; number < keys; number++) {
        make_key(number, rows[number].key);
        rows[number].m = 5;
    }
    return rows;
}

template <class Key> static void count_by_turns(Table<Key> &table, const std::vector<Row<Key>> &rows, uint64_t hits) {
    size_t index = 0;
    for (uint64_t hit = 0; hit < hits; hit++) {
        const Row<Key> &row = rows[index];
        Tally &tally = table[row.key];
        tally.hitcount++;
        tally.sum += row.m;
        index = index + 1 < rows.size() ? index + 1 : 0;
    }
}

static void count_processes(Table<uint64_t> &table, const Row<uint64_t> &row, uint64_t keys, uint64_t hits) {
    uint64_t pid = 0;
    for (uint64_t hit = 0; hit < hits; hit++) {
        Tally &tally = table[pid];
        tally.hitcount++;
        tally.sum += row.m;
        pid = pid + 1 < keys ? pid + 1 : 0;
    }
}

template <class Key> static void print_hits(const Table<Key> &table) {
    uint64_t done = 0;
    for (auto &entry : table)
        done += entry.second.hitcount;
    printf("%lu hits\n", done);
}

template <class Key> static void hit_often(uint64_t keys, uint64_t hits) {
    Table<Key> table;
    std::vector<Row<Key>> rows = rows_of<Key>(keys);
    count_by_turns(table, rows, keys);
    count_by_turns(table, rows, hits);
    print_hits(table);
}

static void hit_processes_often(uint64_t keys, uint64_t hits) {
    Table<uint64_t> table;
    std::vector<Row<uint64_t>> rows = rows_of<uint64_t>(1);
    count_processes(table, rows[0], keys, keys);
    count_processes(table, rows[0], keys, hits);
    print_hits(table);
}

static void print_entries(const Table<uint64_t> &table, std::string &text) {
    std::vector<std::pair<uint64_t, Tally>> entries(table.begin(), table.end());
    std::stable_sort(entries.begin(), entries.end(), [](auto &left, auto &right) { return left.second.hitcount < right.second.hitcount; });
    char line[128];
    for (auto &entry : entries) {
        int length = snprintf(line, sizeof line, "{ n: %10lu } hitcount: %10lu  m: %10lu\n", entry.first, entry.second.hitcount, entry.second.sum);
        text.append(line, length);
    }
}

static void print_often(uint64_t keys, uint64_t count) {
    Table<uint64_t> table;
    count_by_turns(table, rows_of<uint64_t>(keys), keys);
    std::string text;
    for (uint64_t print = 0; print < count; print++) {
        text.clear();
        print_entries(table, text);
    }
    printf("%zu bytes\n", text.size());
}

int main(int count, char **words) {
    if (count == 5 && !strcmp(words[1], "hists") && !strcmp(words[2], "n"))
        hit_often<uint64_t>(strtoul(words[3], nullptr, 10), strtoul(words[4], nullptr, 10));
    else if (count == 5 && !strcmp(words[1], "hists") && !strcmp(words[2], "name"))
        hit_often<std::string>(strtoul(words[3], nullptr, 10), strtoul(words[4], nullptr, 10));
    else if (count == 5 && !strcmp(words[1], "hists") && !strcmp(words[2], "common_pid"))
        hit_processes_often(strtoul(words[3], nullptr, 10), strtoul(words[4], nullptr, 10));
    else if (count == 4 && !strcmp(words[1], "prints"))
        print_often(strtoul(words[2], nullptr, 10), strtoul(words[3], nullptr, 10));
    else
        return 2;
    return 0;
}
