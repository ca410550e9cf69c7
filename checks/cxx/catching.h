// Exceptions: thrown in one file, caught in the other, through frames with and without what must be destroyed, and through a function of C.
#pragma once
#include <stdexcept>
#include <string>
#include <vector>

// What of itself is left is counted, so that each unwound frame shows.
struct Held {
    std::vector<int> &left;
    int number;
    Held(std::vector<int> &left, int number) : left(left), number(number) {}
    ~Held() { left.push_back(number); }
};

struct Refused : std::runtime_error {
    int at;
    Refused(int at, const std::string &what) : std::runtime_error(what), at(at) {}
};

// A template that throws, in a group of sections with its LSDA.
template <typename T> T checked(T value, T most) {
    if (most < value) throw Refused(static_cast<int>(value), "above " + std::to_string(most));
    return value;
}

extern "C" int call_through(int (*function)(void *), void *given);

int deep(std::vector<int> &left, int depth);
int through_c(std::vector<int> &left, int depth);
int never_thrown(int value) noexcept;
