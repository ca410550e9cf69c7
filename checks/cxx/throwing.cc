// What throws.
#include "catching.h"

__attribute__((noinline)) static int innermost(std::vector<int> &left, int depth) {
    Held held(left, 300 + depth);
    return checked(depth, 3) + checked<long>(depth, 5) > 0 ? depth : 0;
}

__attribute__((noinline)) static int middle(std::vector<int> &left, int depth) {
    Held held(left, 200 + depth);
    return innermost(left, depth) + 1;
}

__attribute__((noinline)) int deep(std::vector<int> &left, int depth) {
    Held held(left, 100 + depth);
    try {
        return middle(left, depth) + 1;
    } catch (const std::logic_error &) {
        return -1;
    }
}

int through_c(std::vector<int> &left, int depth) {
    struct Given {
        std::vector<int> &left;
        int depth;
    } given{left, depth};
    Held held(left, 400 + depth);
    return call_through([](void *p) { auto &g = *static_cast<Given *>(p); return deep(g.left, g.depth); }, &given);
}

int never_thrown(int value) noexcept {
    try {
        return checked(value, 10);
    } catch (...) {
        return 10;
    }
}
