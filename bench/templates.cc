// Templates and exceptions, as C++ programs have them: containers of several types, functions that throw, and functions that catch.
#include <algorithm>
#include <functional>
#include <map>
#include <memory>
#include <numeric>
#include <stdexcept>
#include <string>
#include <unordered_map>
#include <vector>

struct Missing : std::out_of_range {
    using std::out_of_range::out_of_range;
};

template <typename K, typename V> class Store {
    std::map<K, std::shared_ptr<V>> rows;
    std::vector<std::function<void(const K &, const V &)>> watchers;

public:
    void put(const K &key, V value) {
        auto row = std::make_shared<V>(std::move(value));
        for (auto &watcher : watchers) watcher(key, *row);
        rows[key] = std::move(row);
    }
    const V &get(const K &key) const {
        auto found = rows.find(key);
        if (found == rows.end()) throw Missing("no row of this key");
        return *found->second;
    }
    void watch(std::function<void(const K &, const V &)> watcher) { watchers.push_back(std::move(watcher)); }
    template <typename F> auto each(F function) const {
        std::vector<decltype(function(std::declval<V>()))> made;
        for (auto &row : rows) made.push_back(function(*row.second));
        return made;
    }
};

template <typename T> T sum_of(std::vector<T> list) {
    std::sort(list.begin(), list.end());
    return std::accumulate(list.begin(), list.end(), T());
}

struct Shape {
    virtual ~Shape() = default;
    virtual double area() const = 0;
};

template <int sides> struct Regular : Shape {
    double side;
    explicit Regular(double side) : side(side) {
        if (side < 0) throw std::invalid_argument("a side below zero");
    }
    double area() const override { return sides * side * side / 4; }
};

std::vector<std::unique_ptr<Shape>> shapes_of(const std::vector<double> &sides) {
    std::vector<std::unique_ptr<Shape>> made;
    for (double side : sides) {
        made.push_back(std::make_unique<Regular<3>>(side));
        made.push_back(std::make_unique<Regular<4>>(side + 1));
        made.push_back(std::make_unique<Regular<5>>(side + 2));
    }
    return made;
}

std::string kept(const std::vector<std::string> &words) try {
    Store<std::string, std::vector<long>> places;
    std::unordered_map<std::string, int> counts;
    places.watch([&](const std::string &word, const std::vector<long> &) { ++counts[word]; });
    for (auto &word : words) places.put(word, {static_cast<long>(word.size()), static_cast<long>(word.at(1))});
    auto lengths = places.each([](const std::vector<long> &list) { return sum_of(list); });
    return words.front() + std::to_string(sum_of(lengths)) + std::to_string(places.get("last")[0]);
} catch (const Missing &missing) {
    return missing.what();
} catch (const std::exception &other) {
    throw std::runtime_error("kept: " + std::string(other.what()));
}

double areas(const std::vector<double> &sides) {
    Store<int, double> store;
    int count = 0;
    try {
        for (auto &shape : shapes_of(sides)) store.put(++count, shape->area());
    } catch (const std::invalid_argument &) {
        return -1;
    }
    return sum_of(store.each([](double area) { return area * 2; })) + store.get(count);
}
