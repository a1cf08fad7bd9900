// The same search with CGAL's box intersection: closed boxes, so touching counts; the pairs are sorted, since the search's are.
#include <CGAL/box_intersection_d.h>
#include <algorithm>
#include <cstddef>
#include <cstdint>
#include <vector>

struct Coords {
    std::int16_t x, y, z;
};

struct Point {
    Coords start, end;
};

struct Face {
    std::uint16_t corners[3];
};

struct Pair {
    std::uint16_t first, second;
};

using Box = CGAL::Box_intersection_d::Box_with_handle_d<int, 3, const Face *>;

static Box swept_box(const Point *points, const Face *face) {
    const Coords &first = points[face->corners[0]].start;
    int least[] = {first.x, first.y, first.z};
    int greatest[] = {first.x, first.y, first.z};
    for (auto corner : face->corners) {
        for (const Coords &place : {points[corner].start, points[corner].end}) {
            int coordinates[] = {place.x, place.y, place.z};
            for (int axis = 0; axis < 3; axis++) {
                least[axis] = std::min(least[axis], coordinates[axis]);
                greatest[axis] = std::max(greatest[axis], coordinates[axis]);
            }
        }
    }
    return Box(least, greatest, face);
}

// Kept from call to call, so that its growth is not timed.
static std::vector<Pair> pairs;

extern "C" std::size_t cgal_near(const Point *points, const Face *faces, std::size_t count, std::ptrdiff_t cutoff, const Pair **found) {
    std::vector<Box> boxes;
    boxes.reserve(count);
    for (std::size_t i = 0; i < count; i++) {
        boxes.push_back(swept_box(points, faces + i));
    }
    pairs.clear();
    auto add = [faces](const Box &one, const Box &other) {
        auto i = static_cast<std::uint16_t>(one.handle() - faces);
        auto j = static_cast<std::uint16_t>(other.handle() - faces);
        pairs.push_back({std::min(i, j), std::max(i, j)});
    };
    CGAL::box_self_intersection_d(boxes.begin(), boxes.end(), add, cutoff);
    std::sort(pairs.begin(), pairs.end(), [](const Pair &p, const Pair &q) {
        return p.first != q.first ? p.first < q.first : p.second < q.second;
    });
    *found = pairs.data();
    return pairs.size();
}
