// The other file of the program: what it has of shapes.h is the same as in main.cc.
#include "shapes.h"
#include <memory>

namespace {
struct Begun {
    std::vector<std::unique_ptr<Shape>> shapes;
    Begun() {
        for (long side = 1; side < 5; ++side) shapes.push_back(std::make_unique<Square>(side));
        shapes.push_back(std::make_unique<Rectangle>(3, 7));
    }
} begun;
Table<int, std::string> names;
} // namespace

long areas_of_others() {
    std::vector<long> areas;
    for (const auto &shape : begun.shapes) areas.push_back(shape->area());
    names[1] = begun.shapes.back()->shown();
    return greatest(areas) + static_cast<long>(names[1].size());
}

int made_by_others() { return made; }

Where others_greatest() { return place_of_greatest(); }
