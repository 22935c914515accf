// Includes mangerknot.h from C++, twice, and calls a function of each way in which an answer crosses; the status is 1 where one is not the
// one expected. That it links at all shows that the names are C's. The C program beside it asks every function.
#include "mangerknot.h"
#include "mangerknot.h"

#include <array>
#include <cstdio>
#include <type_traits>

// An answer's parts are at the same places for C++ and for the archive.
static_assert(sizeof(size_t) == 8 && sizeof(float) == 4, "the archive is for x86-64");
static_assert(std::is_standard_layout<mk_lengths>::value && std::is_trivial<mk_lengths>::value, "structs cross as C's");
static_assert(sizeof(mk_refusal) == 16 && sizeof(mk_lengths) == 32 && sizeof(mk_ids27) == 216, "structs cross as C's");

namespace {

int wrong = 0;

void expect(bool right, const char *what) {
    if (!right) {
        std::printf("includes.cc: wrong: %s\n", what);
        wrong = 1;
    }
}

// By value: a number, a struct in registers, and structs that cross through memory.
void answers() {
    const mk_cell3 at = mk_unpack3(28672);
    const mk_point2 centre = mk_cell_center2(0.5f, mk_pack2(5, 5));
    const mk_lengths none = mk_step_lengths(0.0f, 1.0f, 1, 0, 0, nullptr, 0);
    expect(mk_root(2.25f) == 1.5f, "the root of 2.25");
    expect(mk_pack2(5, 5) == 12608 && mk_packi2(-1, -1) == UINT64_C(18446744073709548480), "document 01's ids");
    expect(at.x == 4 && at.y == 4 && at.z == 4, "unpack");
    expect(centre.x == 2.5f && centre.y == 2.5f, "a cell's centre");
    expect(mk_nbh_shifts3().ids[26] == mk_pack3(1, 1, 1), "the last shift in space");
    expect(none.number == MK_DONE && none.count == 0 && none.end == MK_END_FINISHED, "a step of no length");
}

// Lent memory: document 01's particle on its nodes.
void scatter() {
    const std::array<uint64_t, 1> ids = {0};
    const std::array<uint64_t, MK_RANGE_WORDS> range = {0, 1};
    const std::array<uint32_t, MK_PARTICLE_WORDS> flags = {};
    std::array<float, MK_PARTICLE_FLOATS> particle = {};
    std::array<float, MK_CELLS_OF_REGION * MK_NODE_FLOATS> nodes = {};
    std::array<uint32_t, MK_CELLS_OF_REGION * MK_NODE_WORDS> words = {};
    particle[MK_PARTICLE_POSITION_X] = particle[MK_PARTICLE_POSITION_Y] = particle[MK_PARTICLE_VELOCITY_X] = 1.0f;
    particle[MK_PARTICLE_MASS] = 64.0f;
    particle[MK_PARTICLE_VOLUME0] = 1.0f;
    const mk_refusal done = mk_particle_to_grid_scatter2(1.0f, 1.0f, mk_vector2{0.0f, 0.0f}, ids.size(), ids.data(), ids.size(),
                                                         range.data(), range.size(), 1, particle.data(), particle.size(), flags.data(),
                                                         flags.size(), nodes.data(), nodes.size(), words.data(), words.size());
    expect(done.number == MK_DONE && done.index == 0, "the scatter is done");
    expect(nodes[MK_NODE_MASS] == 1.0f && nodes[5 * MK_NODE_FLOATS + MK_NODE_MASS] == 36.0f, "masses");
    expect(nodes[5 * MK_NODE_FLOATS + MK_NODE_VELOCITY_X] == 1.0f, "a velocity");
    const mk_refusal refused = mk_clear2(ids.size(), ids.data(), ids.size(), nodes.data(), 1, words.data(), words.size());
    expect(refused.number == MK_REFUSED_LENGTH && nodes[MK_NODE_MASS] == 1.0f, "a refused clear");
}

} // namespace

int main() {
    answers();
    scatter();
    return wrong;
}
