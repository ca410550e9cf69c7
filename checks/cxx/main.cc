// Prints what the files of the program have of shapes.h, and what is caught of what they throw.
#include "catching.h"
#include "shapes.h"
#include <cstdio>
#include <thread>

static Table<std::string, int> ages;

static int caught(int (*function)(std::vector<int> &, int), int depth, std::vector<int> &left) {
    Held held(left, depth);
    try {
        return function(left, depth);
    } catch (const Refused &refused) {
        std::printf("%s at %d; ", refused.what(), refused.at);
        if (depth == 5) throw;
        return -depth;
    }
}

static void print_caught() {
    for (int depth = 3; depth < 6; ++depth) {
        for (auto function : {deep, through_c}) {
            std::vector<int> left;
            int answer = 0;
            try {
                answer = caught(function, depth, left);
            } catch (const std::exception &again) {
                std::printf("again: %s; ", again.what());
            }
            std::printf("%d, left", answer);
            for (int number : left) std::printf(" %d", number);
            std::printf("\n");
        }
    }
    std::printf("%d\n", never_thrown(12));
}

int main() {
    Rectangle door(2, 5);
    const Shape &shape = door;
    std::printf("%s, %ld\n", shape.shown().c_str(), areas_of_others());
    std::printf("%d made, %d by both, %d here\n", made, made_by_others(), here);
    ages["a"] = 3, ages["b"] = 4;
    std::vector<long> list;
    for (const auto &[name, age] : ages.rows) list.push_back(age * 10 + static_cast<long>(name[0]));
    std::printf("%ld %zu %d %d\n", greatest(list), ages.rows.size(), Table<std::string, int>::tables, Table<int, std::string>::tables);
    std::thread other([] { Square square(9); std::printf("%d there, %ld\n", here, square.area()); });
    other.join();
    std::printf("%d asked, one function: %s\n", counter<long>(), place_of_greatest() == others_greatest() ? "yes" : "no");
    print_caught();
}
