// Times how another library splits a mesh. Standard input has the number of vertices, of triangles, of repetitions and of runs in
// each, and the corners. The first line of the output has the result's numbers of vertices and triangles, or "refused". Each other
// line has the nanoseconds of this thread that a run took on average in a repetition: of the refinement alone, from the library's
// own mesh to its own mesh, and from list to list.
#pragma once
#include <ctime>
#include <iostream>
#include <optional>
#include <vector>

struct Mesh {
    int vertices;
    // Three for each triangle.
    std::vector<int> corners;
};

const int WARM_UP = 1;

inline double thread_time() {
    timespec time;
    clock_gettime(CLOCK_THREAD_CPUTIME_ID, &time);
    return 1e9 * time.tv_sec + time.tv_nsec;
}

template <class Work>
double nanoseconds(int runs, Work work) {
    double start = thread_time();
    for (int run = 0; run < runs; run++)
        work(run);
    return (thread_time() - start) / runs;
}

// `Library` has the functions build, which gives no value for a mesh that the library does not take, refine, and list.
template <class Library>
int measure() {
    Mesh mesh;
    int triangles, repetitions, runs;
    std::cin >> mesh.vertices >> triangles >> repetitions >> runs;
    mesh.corners.resize(3 * triangles);
    for (int &corner : mesh.corners)
        std::cin >> corner;

    auto first = Library::build(mesh);
    if (!first) {
        std::cout << "refused\n";
        return 0;
    }
    Library::refine(*first);
    Mesh result = Library::list(*first);
    std::cout << result.vertices << ' ' << result.corners.size() / 3 << '\n';

    for (int repetition = 0; repetition < WARM_UP + repetitions; repetition++) {
        std::vector<decltype(first)> built;
        for (int run = 0; run < runs; run++)
            built.push_back(Library::build(mesh));
        double alone = nanoseconds(runs, [&](int run) { Library::refine(*built[run]); });
        built.clear();
        double whole = nanoseconds(runs, [&](int) {
            auto own = Library::build(mesh);
            Library::refine(*own);
            result = Library::list(*own);
        });
        if (repetition >= WARM_UP)
            std::cout << alone << ' ' << whole << '\n';
    }
    return 0;
}
