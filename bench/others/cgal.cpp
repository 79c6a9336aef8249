// CGAL's quadrisection of triangles (PTQ) with midpoints. It has no refinement without positions.
#include "measure.h"
#include <CGAL/Simple_cartesian.h>
#include <CGAL/Surface_mesh.h>
#include <CGAL/subdivision_method_3.h>

using Point = CGAL::Simple_cartesian<double>::Point_3;
using Own = CGAL::Surface_mesh<Point>;

// New vertices at the middles of the edges, old ones where they are.
struct Midpoints {
    Own &own;

    void edge_node(Own::Halfedge_index edge, Point &point) {
        point = CGAL::midpoint(own.point(own.source(edge)), own.point(own.target(edge)));
    }
    void vertex_node(Own::Vertex_index vertex, Point &point) { point = own.point(vertex); }
    void border_node(Own::Halfedge_index edge, Point &between, Point &end) {
        edge_node(edge, between);
        end = own.point(own.target(edge));
    }
};

struct Cgal {
    static std::optional<Own> build(const Mesh &mesh) {
        Own own;
        own.reserve(mesh.vertices, mesh.corners.size() / 2, mesh.corners.size() / 3);
        for (int vertex = 0; vertex < mesh.vertices; vertex++)
            own.add_vertex(Point(vertex, 0, 0));
        for (auto c = mesh.corners.begin(); c != mesh.corners.end(); c += 3) {
            auto vertex = [&](int place) { return Own::Vertex_index(c[place]); };
            if (own.add_face(vertex(0), vertex(1), vertex(2)) == Own::null_face())
                return {};
        }
        return own;
    }

    static void refine(Own &own) { CGAL::Subdivision_method_3::PTQ(own, Midpoints{own}); }

    static Mesh list(const Own &own) {
        Mesh mesh{int(own.number_of_vertices()), {}};
        mesh.corners.reserve(3 * own.number_of_faces());
        for (auto face : own.faces())
            for (auto vertex : own.vertices_around_face(own.halfedge(face)))
                mesh.corners.push_back(vertex);
        return mesh;
    }
};

int main() { return measure<Cgal>(); }
