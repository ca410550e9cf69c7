// Inline functions, templates, virtual functions and inline variables: each is compiled in both files, and stands in a group of sections, so that the linker
// takes one of the two.
#pragma once
#include <algorithm>
#include <map>
#include <string>
#include <vector>

inline int made = 0;
inline thread_local int here = 0;

struct Shape {
    std::string name;
    explicit Shape(const char *name) : name(name) { ++made, ++here; }
    virtual ~Shape() = default;
    virtual long area() const = 0;
    virtual std::string shown() const { return name + " " + std::to_string(area()); }
};

struct Square : Shape {
    long side;
    explicit Square(long side) : Shape("square"), side(side) {}
    long area() const override { return side * side; }
};

struct Rectangle : Square {
    long height;
    Rectangle(long side, long height) : Square(side), height(height) { name = "rectangle"; }
    long area() const override { return side * height; }
};

// One counter for each type, whichever file asks.
template <typename T> int &counter() {
    static int count = 0;
    return count;
}

template <typename T> T greatest(const std::vector<T> &list) {
    ++counter<T>();
    return *std::max_element(list.begin(), list.end());
}

template <typename K, typename V> struct Table {
    std::map<K, V> rows;
    static inline int tables = 0;
    Table() { ++tables; }
    V &operator[](const K &key) { return rows[key]; }
};

// Where a function stands, for both files the same.
using Where = const void *;
inline Where place_of_greatest() { return reinterpret_cast<Where>(&greatest<long>); }

long areas_of_others();
int made_by_others();
Where others_greatest();
