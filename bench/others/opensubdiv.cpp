// OpenSubdiv's topology refinement: one uniform level of the Loop scheme, without positions.
#include "measure.h"
#include <memory>
#include <opensubdiv/far/topologyDescriptor.h>
#include <opensubdiv/far/topologyRefinerFactory.h>

namespace Far = OpenSubdiv::Far;
namespace Sdc = OpenSubdiv::Sdc;
using Factory = Far::TopologyRefinerFactory<Far::TopologyDescriptor>;
using Own = std::unique_ptr<Far::TopologyRefiner>;

struct Refinement {
    static std::optional<Own> build(const Mesh &mesh) {
        std::vector<int> threes(mesh.corners.size() / 3, 3);
        Far::TopologyDescriptor descriptor;
        descriptor.numVertices = mesh.vertices;
        descriptor.numFaces = threes.size();
        descriptor.numVertsPerFace = threes.data();
        descriptor.vertIndicesPerFace = mesh.corners.data();
        Own own(Factory::Create(descriptor, Factory::Options(Sdc::SCHEME_LOOP)));
        if (!own)
            return {};
        return own;
    }

    static void refine(Own &own) { own->RefineUniform(Far::TopologyRefiner::UniformOptions(1)); }

    static Mesh list(const Own &own) {
        auto &level = own->GetLevel(1);
        Mesh mesh{level.GetNumVertices(), {}};
        mesh.corners.reserve(3 * level.GetNumFaces());
        for (int face = 0; face < level.GetNumFaces(); face++) {
            auto corners = level.GetFaceVertices(face);
            mesh.corners.insert(mesh.corners.end(), corners.begin(), corners.end());
        }
        return mesh;
    }
};

int main() { return measure<Refinement>(); }
