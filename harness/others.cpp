// Times the line simplification of Boost.Geometry and of GEOS on lines of points, one "x y" to a row of a text file.
// Their rule differs from the table's (floating numbers, Euclidean distance, no list of marks), so the times are only company.
#include <boost/geometry.hpp>
#include <boost/geometry/geometries/linestring.hpp>
#include <boost/geometry/geometries/point_xy.hpp>
#include <geos/geom/CoordinateArraySequence.h>
#include <geos/geom/GeometryFactory.h>
#include <geos/geom/LineString.h>
#include <geos/simplify/DouglasPeuckerSimplifier.h>

#include <algorithm>
#include <chrono>
#include <cstdio>
#include <fstream>
#include <string>
#include <utility>
#include <vector>

using Points = std::vector<std::pair<double, double>>;

static const double tolerance = 8.0;  // steps
static const int runs = 15;

static Points read(const char *name) {
    Points points;
    std::ifstream in(name);
    for (double x, y; in >> x >> y;) points.emplace_back(x, y);
    return points;
}

// The best time of several calls, in microseconds.
template <class Call>
static double best(Call call) {
    double least = 1e300;
    for (int i = 0; i < runs; i++) {
        const auto start = std::chrono::steady_clock::now();
        call();
        const std::chrono::duration<double, std::micro> taken = std::chrono::steady_clock::now() - start;
        least = std::min(least, taken.count());
    }
    return least;
}

static void row(const char *who, const std::string &line, double time, size_t kept) {
    std::printf("| %-15s | %-32s | %10.1f | %5zu |\n", who, line.c_str(), time, kept);
}

int main(int count, char **names) {
    namespace bg = boost::geometry;
    using Line = bg::model::linestring<bg::model::d2::point_xy<double>>;
    for (int i = 1; i < count; i++) {
        const Points points = read(names[i]);
        std::string name = names[i];
        name = name.substr(name.find_last_of('/') + 1);
        name = name.substr(0, name.find('.'));

        Line line, thinned;
        for (const auto &p : points) line.emplace_back(p.first, p.second);
        const double boosted = best([&] {
            thinned.clear();
            bg::simplify(line, thinned, tolerance);
        });
        row("Boost.Geometry", name, boosted, thinned.size());

        const auto factory = geos::geom::GeometryFactory::create();
        geos::geom::CoordinateArraySequence row_of;
        for (const auto &p : points) row_of.add(geos::geom::Coordinate(p.first, p.second));
        const auto seam = factory->createLineString(row_of);
        size_t kept = 0;
        const double geos = best([&] { kept = geos::simplify::DouglasPeuckerSimplifier::simplify(seam, tolerance)->getNumPoints(); });
        row("GEOS", name, geos, kept);
    }
}
