/* Calls every function of mangerknot.h from C; the status is 1 where an answer is not the one expected. The Rust tests ask more. */
#include "mangerknot.h"

#include <math.h>
#include <stdio.h>
#include <string.h>

static int wrong = 0;

static void expect(int right, const char *what) {
    if (!right) {
        printf("calls.c: wrong: %s\n", what);
        wrong = 1;
    }
}

#define EXPECT(what) expect(what, #what)

/* A list as a function takes it: where it begins, and how many entries it has. */
#define LENT(list) list, sizeof(list) / sizeof *(list)

/* The floats and the words of the nodes of a region. */
#define NODES (MK_CELLS_OF_REGION * MK_NODE_FLOATS)
#define NODE_WORDS (MK_CELLS_OF_REGION * MK_NODE_WORDS)

/* As the archive has the answers that cross through memory. */
_Static_assert(sizeof(size_t) == 8 && sizeof(float) == 4, "the archive is for x86-64");
_Static_assert(sizeof(mk_refusal) == 16 && sizeof(mk_found_place) == 16 && sizeof(mk_taken_substep) == 24 && sizeof(mk_lengths) == 32,
               "answers are laid out as C lays them out");

static void ids_in_2d(void) {
    const uint64_t cell = 12608;
    mk_cell2 at = mk_unpack2(cell);
    EXPECT(mk_pack2(5, 5) == cell && mk_pack2(2, 2) == 640 && mk_pack2(UINT32_C(1) << 28, 0) == 0);
    EXPECT(mk_packi2(-1, -1) == UINT64_C(18446744073709548480));
    EXPECT(at.x == 5 && at.y == 5);
    EXPECT(mk_packed_add2(UINT64_C(18446744073709548480), cell) == 12288);
    EXPECT(mk_shift_cell_neg_one2(cell) == mk_pack2(4, 4));
    EXPECT(mk_shift_cell_neg_two2(cell) == mk_pack2(3, 3));
    EXPECT(mk_shift_cell_plus_five2(cell) == mk_pack2(10, 10));
    EXPECT(mk_number_in_region2(cell) == 5);
    EXPECT(mk_cell_of_region2(cell, 6) == mk_pack2(6, 5));
    EXPECT(mk_is_in_region_with_color2(cell, 3) == 1);
    EXPECT(mk_is_in_region_with_color2(cell, 2) == 0);
}

/* By 2, 0, 1 on each axis, y first and z last; regions lie 4 cells apart, and a region is no neighbour of its own. */
static const uint32_t shift[3] = {2, 0, 1};

static void stencils_in_2d(void) {
    const uint64_t cell = 12608;
    static const uint32_t apart[3][2] = {{0, 4}, {4, 4}, {4, 0}};
    mk_ids9 shifts = mk_nbh_shifts2(), stencil = mk_stencil_ids2(cell);
    mk_ids3 region_shifts = mk_nbh_region_shifts2(), neighbors = mk_region_neighbors2(mk_region_of(cell));
    for (int k = 0; k < MK_STENCIL_CELLS; k++) {
        uint32_t x = shift[k / 3], y = shift[k % 3];
        EXPECT(shifts.ids[k] == mk_pack2(x, y) && stencil.ids[k] == mk_pack2(5 + x, 5 + y));
    }
    for (int k = 0; k < 3; k++) {
        EXPECT(region_shifts.ids[k] == mk_pack2(apart[k][0], apart[k][1]));
        EXPECT(neighbors.ids[k] == mk_pack2(4 + apart[k][0], 4 + apart[k][1]));
    }
}

static void ids_in_3d(void) {
    const uint64_t cell = 28672;
    mk_cell3 at = mk_unpack3(cell);
    EXPECT(mk_pack3(4, 4, 4) == cell);
    EXPECT(mk_packi3(-1, -1, -1) == UINT64_C(18446744073709551552));
    EXPECT(at.x == 4 && at.y == 4 && at.z == 4);
    EXPECT(mk_packed_add3(UINT64_C(18446744073709551552), 0) == UINT64_C(9223372036854775744));
    EXPECT(mk_shift_cell_neg_one3(cell) == mk_pack3(3, 3, 3));
    EXPECT(mk_shift_cell_neg_two3(cell) == mk_pack3(2, 2, 2));
    EXPECT(mk_shift_cell_plus_five3(cell) == mk_pack3(9, 9, 9));
    EXPECT(mk_number_in_region3(mk_pack3(4, 5, 6)) == 36);
    EXPECT(mk_cell_of_region3(cell, 36) == mk_pack3(4, 5, 6));
    EXPECT(mk_is_in_region_with_color3(cell, 7) == 1);
    EXPECT(mk_is_in_region_with_color3(cell, 8) == 0);
    EXPECT(mk_masked_add(0xff, 0x1ff, 2) == 1);
    EXPECT(mk_region_of(12608) == 12288);
}

static void stencils_in_3d(void) {
    const uint64_t cell = 28672;
    mk_ids27 shifts = mk_nbh_shifts3(), stencil = mk_stencil_ids3(cell);
    mk_ids7 region_shifts = mk_nbh_region_shifts3(), neighbors = mk_region_neighbors3(cell);
    for (int k = 0; k < 27; k++) {
        uint32_t x = shift[k / 3 % 3], y = shift[k % 3], z = shift[k / 9];
        EXPECT(shifts.ids[k] == mk_pack3(x, y, z) && stencil.ids[k] == mk_pack3(4 + x, 4 + y, 4 + z));
    }
    for (uint32_t k = 0; k < 7; k++) {
        uint32_t x = (k + 1) & 4, y = 2 * ((k + 1) & 2), z = 4 * ((k + 1) & 1);
        EXPECT(region_shifts.ids[k] == mk_pack3(x, y, z) && neighbors.ids[k] == mk_pack3(4 + x, 4 + y, 4 + z));
    }
}

static void floats(void) {
    mk_weights weights = mk_eval_all(1.0f);
    EXPECT(mk_to_bits(1.0f) == 0x3f800000);
    EXPECT(mk_to_bits(NAN) == 0x7fc00000);
    EXPECT(mk_from_bits(0xbf800000) == -1.0f);
    EXPECT(isnan(mk_from_bits(0xff800001)));
    EXPECT(mk_round(2.5f) == 3.0f && mk_round(0.49999997f) == 0.0f);
    EXPECT(mk_round(-0.25f) == 0.0f && signbit(mk_round(-0.25f)));
    EXPECT(mk_to_u32(2.75f) == 2);
    EXPECT(mk_from_u32(16777217) == 16777216.0f);
    EXPECT(mk_root(2.25f) == 1.5f);
    EXPECT(mk_inv_exact(0.0f) == 0.0f);
    EXPECT(mk_max(NAN, -1.0f) == -1.0f);
    EXPECT(mk_abs(-2.0f) == 2.0f);
    EXPECT(mk_signum(-0.0f) == -1.0f);
    EXPECT(mk_inv_d(0.5f) == 16.0f);
    EXPECT(weights.weights[0] == 0.125f && weights.weights[1] == 0.75f && weights.weights[2] == 0.125f);
    EXPECT(mk_eval(1.0f) == 0.125f);
    EXPECT(mk_eval_derivative(0.25f) == -0.5f);
}

static void plane(void) {
    const mk_vector2 way = {0.5f, -2.0f};
    const mk_point2 node = {3.5f, 1.0f}, particle = {3.0f, 3.0f};
    mk_weights2 weights = mk_precompute_weights2(way, 2.0f);
    mk_vector2 along = mk_stencil_gradient_with_dir2(way, 2.0f), between = mk_stencil_gradient2(node, particle, 2.0f);
    EXPECT(weights.x[2] == 0.28125f && weights.y[0] == 0.125f && weights.y[1] == 0.75f);
    EXPECT(mk_stencil_with_dir2(way, 2.0f) == 0.0859375f);
    EXPECT(mk_stencil2(node, particle, 2.0f) == 0.0859375f);
    EXPECT(along.x == 0.03125f && along.y == -0.171875f);
    EXPECT(between.x == along.x && between.y == along.y);
}

static void cells(void) {
    const mk_point2 at = {3.2f, 4.9f};
    mk_point2 nearest = mk_cell_pos_closest_to_point2(0.5f, at), centre = mk_cell_center2(0.5f, 12608);
    EXPECT(nearest.x == 3.0f && nearest.y == 5.0f);
    EXPECT(mk_cell_at_point2(0.5f, at) == mk_pack2(6, 10));
    EXPECT(mk_cell_associated_to_point2(0.5f, at) == mk_pack2(5, 9));
    EXPECT(mk_region_associated_to_point2(0.5f, at) == mk_pack2(4, 8));
    EXPECT(centre.x == 2.5f && centre.y == 2.5f);
}

static void lookups(void) {
    const uint64_t ids[3] = {4096, 8192, 16384};
    mk_found_place there = mk_lookup(ids, 3, 16384), absent = mk_lookup(ids, 3, 12288), of_none = mk_lookup(NULL, 0, 0);
    EXPECT(there.found == 1 && there.place == 2);
    EXPECT(absent.found == 0 && absent.place == 0);
    EXPECT(of_none.found == 0 && of_none.place == 0);
}

/* Two regions full of NaNs, signalling and quiet in turn, each with digits of its own. */
static void nodes(void) {
    const uint64_t ids[3] = {0, 4096, 4097};
    float node_floats[2 * NODES];
    uint32_t node_words[2 * NODE_WORDS], kept[2 * NODES], zeros[2 * NODES] = {0};
    mk_refusal done, refused;
    for (uint32_t k = 0; k < 2 * NODES; k++) {
        kept[k] = (k % 2 == 0 ? 0x7f800001 : 0xffc00000) + k;
    }
    memcpy(node_floats, kept, sizeof kept);
    memset(node_words, 0xa5, sizeof node_words);
    refused = mk_clear2(2, ids + 1, 2, LENT(node_floats), LENT(node_words));
    EXPECT(refused.number == MK_REFUSED_REGION_IDS && refused.index == 1);
    refused = mk_clear2(2, ids, 2, node_floats, 2 * NODES - 1, LENT(node_words));
    EXPECT(refused.number == MK_REFUSED_LENGTH && refused.index == 0);
    EXPECT(memcmp(node_floats, kept, sizeof kept) == 0 && node_words[0] == 0xa5a5a5a5 && node_words[31] == 0xa5a5a5a5);
    done = mk_clear2(2, ids, 2, LENT(node_floats), LENT(node_words));
    EXPECT(done.number == MK_DONE && done.index == 0);
    EXPECT(memcmp(node_floats, zeros, sizeof zeros) == 0 && memcmp(node_words, zeros, sizeof node_words) == 0);
    done = mk_clear2(0, NULL, 0, NULL, 0, NULL, 0);
    EXPECT(done.number == MK_DONE && done.index == 0);
    refused = mk_clear2(1, NULL, 0, NULL, 0, NULL, 0);
    EXPECT(refused.number == MK_REFUSED_LENGTH && refused.index == 0);
}

/* Document 01's listing: one particle of mass 64 at (1, 1) with the velocity (1, 0) in region 0; h and dt are 1. */
static const uint64_t region[1] = {0}, range[2] = {0, 1}, in_order[1] = {0};
static const mk_vector2 no_gravity = {0.0f, 0.0f};
static const float particle[MK_PARTICLE_FLOATS] = {
    [MK_PARTICLE_POSITION_X] = 1,
    [MK_PARTICLE_POSITION_Y] = 1,
    [MK_PARTICLE_VELOCITY_X] = 1,
    [MK_PARTICLE_MASS] = 64,
    [MK_PARTICLE_VOLUME0] = 1,
};
static const uint32_t flags[MK_PARTICLE_WORDS] = {0};

/* The listing's nine nodes have these masses, momenta to the right of the same size, and the velocity (1, 0); the others are empty. */
static void expect_listing(const float *node_floats, const uint32_t *node_words) {
    static const float masses[MK_CELLS_OF_REGION] = {1, 6, 1, 0, 6, 36, 6, 0, 1, 6, 1, 0, 0, 0, 0, 0};
    for (int k = 0; k < 16; k++) {
        const float *node = node_floats + MK_NODE_FLOATS * k;
        const float right[MK_NODE_FLOATS] = {
            [MK_NODE_MASS] = masses[k],
            [MK_NODE_MOMENTUM_X] = masses[k],
            [MK_NODE_VELOCITY_X] = masses[k] > 0 ? 1 : 0,
        };
        EXPECT(memcmp(node, right, sizeof right) == 0 && node_words[k] == 0);
    }
}

static void scatters(void) {
    static float node_floats[3][NODES];
    static uint32_t node_words[3][NODE_WORDS];
    mk_refusal done = mk_particle_to_grid_scatter2(1.0f, 1.0f, no_gravity, 1, LENT(region), LENT(range), 1, LENT(particle), LENT(flags),
                                                   LENT(node_floats[0]), LENT(node_words[0]));
    EXPECT(done.number == MK_DONE && done.index == 0);
    done = mk_particle_to_grid_scatter_region2(0, 1.0f, 1.0f, no_gravity, 1, LENT(region), LENT(range), 1, LENT(particle), LENT(flags),
                                               LENT(node_floats[1]), LENT(node_words[1]));
    EXPECT(done.number == MK_DONE && done.index == 0);
    done = mk_scatter_in_order2(LENT(in_order), 1.0f, 1.0f, no_gravity, 1, LENT(region), LENT(range), 1, LENT(particle), LENT(flags),
                                LENT(node_floats[2]), LENT(node_words[2]));
    EXPECT(done.number == MK_DONE && done.index == 0);
    for (int k = 0; k < 3; k++) {
        expect_listing(node_floats[k], node_words[k]);
    }
}

static void refused_scatters(void) {
    static const uint64_t no_region[1] = {1};
    static float node_floats[NODES];
    static uint32_t node_words[NODE_WORDS];
    mk_refusal refused = mk_particle_to_grid_scatter2(0.0f, 1.0f, no_gravity, 1, LENT(region), LENT(range), 1, LENT(particle), LENT(flags),
                                                      LENT(node_floats), LENT(node_words));
    EXPECT(refused.number == MK_REFUSED_SETTING && refused.index == 0);
    refused = mk_particle_to_grid_scatter_region2(1, 1.0f, 1.0f, no_gravity, 1, LENT(region), LENT(range), 1, LENT(particle), LENT(flags),
                                                  LENT(node_floats), LENT(node_words));
    EXPECT(refused.number == MK_REFUSED_CODE && refused.index == 0);
    refused = mk_scatter_in_order2(LENT(no_region), 1.0f, 1.0f, no_gravity, 1, LENT(region), LENT(range), 1, LENT(particle), LENT(flags),
                                   LENT(node_floats), LENT(node_words));
    EXPECT(refused.number == MK_REFUSED_CODE && refused.index == 0);
    refused = mk_particle_to_grid_scatter2(2.0f, 1.0f, no_gravity, 1, LENT(region), LENT(range), 1, LENT(particle), flags, 3,
                                           LENT(node_floats), LENT(node_words));
    EXPECT(refused.number == MK_REFUSED_LENGTH && refused.index == 0);
    EXPECT(node_floats[0] == 0.0f && node_floats[35] == 0.0f);
}

/* One more region than there may be, which lend enough of everything. */
#define TOO_MANY (MK_MAX_REGIONS + 1)
static uint64_t many_ids[TOO_MANY], many_ranges[TOO_MANY * MK_RANGE_WORDS];
static float many_floats[TOO_MANY * NODES];
static uint32_t many_words[TOO_MANY * NODE_WORDS];

/* The listing's scatter with another cell width, range, particle, flags or region. */
static mk_refusal changed(float width, const uint64_t *ranges, const float *floats, const uint32_t *words, const uint64_t *ids) {
    static float node_floats[NODES];
    static uint32_t node_words[NODE_WORDS];
    return mk_particle_to_grid_scatter2(width, 1.0f, no_gravity, 1, ids, 1, ranges, MK_RANGE_WORDS, 1, floats, MK_PARTICLE_FLOATS, words,
                                        MK_PARTICLE_WORDS, LENT(node_floats), LENT(node_words));
}

/* The listing's scatter with another float of its particle. */
static mk_refusal with_float(int place, float other) {
    float floats[MK_PARTICLE_FLOATS];
    memcpy(floats, particle, sizeof particle);
    floats[place] = other;
    return changed(1.0f, range, floats, flags, region);
}

/* Every number of the table behind the first, each by one change of a call that is done. */
static void every_refusal(void) {
    const uint64_t next[1] = {4096}, no_id[1] = {1}, nobody[MK_RANGE_WORDS] = {0, 0}, late[MK_RANGE_WORDS] = {1, 1};
    const uint32_t no_flag[MK_PARTICLE_WORDS] = {[MK_PARTICLE_WORD_FLUID] = 2};
    EXPECT(changed(1.0f, range, particle, flags, region).number == MK_DONE);
    EXPECT(changed(MK_MIN_CELL_WIDTH / 2.0f, range, particle, flags, region).number == MK_REFUSED_SETTING);
    EXPECT(changed(MK_MAX_CELL_WIDTH * 2.0f, range, particle, flags, region).number == MK_REFUSED_SETTING);
    EXPECT(changed(MK_MAX_CELL_WIDTH, range, particle, flags, region).number == MK_REFUSED_OFF_GRID);
    EXPECT(changed(1.0f, range, particle, no_flag, region).number == MK_REFUSED_CODE);
    EXPECT(with_float(MK_PARTICLE_KINEMATIC_VEL_Y, INFINITY).number == MK_REFUSED_NOT_FINITE);
    EXPECT(changed(1.0f, range, particle, flags, no_id).number == MK_REFUSED_REGION_IDS);
    EXPECT(changed(1.0f, late, particle, flags, region).number == MK_REFUSED_COVER);
    EXPECT(with_float(MK_PARTICLE_POSITION_X, MK_FIRST_CELL - 1).number == MK_REFUSED_OFF_GRID);
    EXPECT(with_float(MK_PARTICLE_POSITION_Y, MK_LAST_CELL + 1).number == MK_REFUSED_OFF_GRID);
    EXPECT(with_float(MK_PARTICLE_POSITION_Y, MK_LAST_CELL).number == MK_REFUSED_OUT_OF_REGION);
    EXPECT(changed(1.0f, range, particle, flags, next).number == MK_REFUSED_OUT_OF_REGION);
    EXPECT(with_float(MK_PARTICLE_POSITION_X, 3).number == MK_REFUSED_UNLISTED);
    mk_refusal left_over = changed(1.0f, nobody, particle, flags, region);
    EXPECT(left_over.number == MK_REFUSED_COVER && left_over.index == 1);
    for (uint64_t k = 0; k < TOO_MANY; k++) {
        many_ids[k] = k << 12;
    }
    mk_refusal most = mk_clear2(MK_MAX_REGIONS, many_ids, MK_MAX_REGIONS, many_floats, MK_MAX_REGIONS * NODES, many_words, MK_MAX_REGIONS *
                                NODE_WORDS);
    EXPECT(most.number == MK_DONE && most.index == 0);
    most = mk_particle_to_grid_scatter2(1.0f, 1.0f, no_gravity, TOO_MANY, LENT(many_ids), LENT(many_ranges), 0, NULL, 0, NULL, 0,
                                        LENT(many_floats), LENT(many_words));
    EXPECT(most.number == MK_REFUSED_LIMIT && most.index == 0);
}

/* A wall at x = -0.5, of friction 0.25: its points for the 16 cells of region 0, whose first has its centre at (0, 0). */
static const float friction[1] = {0.25f};
static float wall[MK_CELLS_OF_REGION * MK_PROJECTION_FLOATS];
static uint32_t inside[MK_CELLS_OF_REGION * MK_PROJECTION_WORDS];

static void build_wall(void) {
    for (int k = 0; k < 16; k++) {
        wall[2 * k] = -0.5f;
        wall[2 * k + 1] = (float)(k / 4);
    }
}

/* The first node goes to the wall, and leaves along it; the next one is farther from it than it goes. */
static void updates(void) {
    float node_floats[NODES] = {1, 2, 3, -1, 2, 4, 5, 1, 2, 3, -0.25f, 2, 4, 5};
    uint32_t node_words[NODE_WORDS] = {7, 0};
    const float first[7] = {1, 2, 3, 0, 1.75f, 4, 5}, second[7] = {1, 2, 3, -0.25f, 2, 4, 5}, locked[7] = {1, 0, 3, 0, 1.75f, 4, 5};
    mk_refusal done = mk_grid_update2(1.0f, 1.0f, MK_BOUNDARY_FRICTION, 0, 1, LENT(region), 1, LENT(friction), LENT(wall), LENT(inside),
                                      LENT(node_floats), LENT(node_words));
    EXPECT(done.number == MK_DONE && done.index == 0);
    EXPECT(memcmp(node_floats, first, sizeof first) == 0 && memcmp(node_floats + 7, second, sizeof second) == 0);
    EXPECT(node_floats[14] == 0.0f && node_floats[NODES - 1] == 0.0f && node_words[0] == 7 && node_words[1] == 0);
    done = mk_grid_update2(1.0f, 1.0f, MK_BOUNDARY_NONE, MK_LOCK_X, 1, LENT(region), 0, NULL, 0, NULL, 0, NULL, 0, LENT(node_floats),
                           LENT(node_words));
    EXPECT(done.number == MK_DONE && done.index == 0 && memcmp(node_floats, locked, sizeof locked) == 0);
}

/* Clear, scatter and update: the listing's nodes whatever was there before, as they go away from the wall. */
static void sequences(void) {
    float node_floats[NODES];
    uint32_t node_words[NODE_WORDS];
    memset(node_floats, 0xa5, sizeof node_floats);
    memset(node_words, 0xa5, sizeof node_words);
    mk_refusal done = mk_clear_scatter_update2(1.0f, 1.0f, no_gravity, MK_BOUNDARY_FRICTION_Z_UP, 0, 1, LENT(region), LENT(range), 1,
                                               LENT(particle), LENT(flags), 1, LENT(friction), LENT(wall), LENT(inside), LENT(node_floats),
                                               LENT(node_words));
    EXPECT(done.number == MK_DONE && done.index == 0);
    expect_listing(node_floats, node_words);
}

static void refused_updates(void) {
    float node_floats[NODES] = {1, 2, 3, -1, 2, 4, 5};
    uint32_t node_words[NODE_WORDS] = {0}, no_flag[MK_CELLS_OF_REGION * MK_PROJECTION_WORDS] = {0, 0, 2};
    mk_refusal refused = mk_grid_update2(1.0f, 1.0f, MK_BOUNDARY_FRICTION_Z_UP + 1, 0, 1, LENT(region), 1, LENT(friction), LENT(wall),
                                         LENT(inside), LENT(node_floats), LENT(node_words));
    EXPECT(refused.number == MK_REFUSED_CODE && refused.index == 0);
    refused = mk_grid_update2(1.0f, 1.0f, MK_BOUNDARY_STICK, MK_LOCK_X | MK_LOCK_Y, 1, LENT(region), 1, LENT(friction), LENT(wall),
                              LENT(no_flag), LENT(node_floats), LENT(node_words));
    EXPECT(refused.number == MK_REFUSED_CODE && refused.index == 2);
    refused = mk_clear_scatter_update2(1.0f, 1.0f, no_gravity, MK_BOUNDARY_STICK, MK_LOCK_X | MK_LOCK_Y, 1, LENT(region), LENT(range), 1,
                                       LENT(particle), LENT(flags), 1, LENT(friction), wall, 31, LENT(inside), LENT(node_floats),
                                       LENT(node_words));
    EXPECT(refused.number == MK_REFUSED_LENGTH && refused.index == 0);
    EXPECT(node_floats[0] == 1.0f && node_floats[1] == 2.0f && node_floats[3] == -1.0f && node_words[0] == 0);
}

/* The listing's particle, with F the identity and its phase 1, over nodes that all go (1, 2), in half a unit of time. */
static float gathered[MK_PARTICLE_FLOATS];
static uint32_t gathered_flags[MK_PARTICLE_WORDS];
static float flow[NODES];
static uint32_t no_flags[NODE_WORDS];

static void build_flow(void) {
    memcpy(gathered, particle, sizeof particle);
    gathered[MK_PARTICLE_PHASE] = 1;
    gathered[MK_PARTICLE_DEFORMATION_GRADIENT_00] = gathered[MK_PARTICLE_DEFORMATION_GRADIENT_11] = 1;
    for (int k = 0; k < 16; k++) {
        flow[MK_NODE_FLOATS * k + MK_NODE_VELOCITY_X] = 1;
        flow[MK_NODE_FLOATS * k + MK_NODE_VELOCITY_Y] = 2;
    }
}

/* The particle goes with the nodes, which do not turn it; the host squeezes it; its models say that it has no density and an energy. */
static void gathers(void) {
    const float given[2] = {0, 3}, first[8] = {1.5f, 2, 1, 2, 0, 0, 0, 0}, identity[4] = {1, 0, 0, 1};
    const uint32_t failure[1] = {1};
    float before[NODES];
    memcpy(before, flow, sizeof flow);
    mk_refusal done = mk_grid_to_particle_first_half2(1.0f, 0.5f, 1, 1, LENT(region), LENT(range), 1, LENT(gathered), LENT(gathered_flags),
                                                      LENT(flow), LENT(no_flags));
    EXPECT(done.number == MK_DONE && done.index == 0);
    EXPECT(memcmp(gathered, first, sizeof first) == 0 && memcmp(gathered + MK_PARTICLE_DEFORMATION_GRADIENT_00, identity, sizeof identity)
           == 0);
    EXPECT(memcmp(flow, before, sizeof flow) == 0 && gathered[MK_PARTICLE_PHASE] == 1 && gathered[MK_PARTICLE_MASS] == 64);
    gathered[MK_PARTICLE_DEFORMATION_GRADIENT_00] = 0.5f;
    done = mk_grid_to_particle_second_half2(1, LENT(gathered), LENT(gathered_flags), LENT(given), LENT(failure));
    EXPECT(done.number == MK_DONE && done.index == 0);
    EXPECT(gathered_flags[MK_PARTICLE_WORD_FAILED] == 1 && gathered_flags[MK_PARTICLE_WORD_KINEMATIC] == 0 && memcmp(gathered +
           MK_PARTICLE_DEFORMATION_GRADIENT_00, identity, sizeof identity) == 0);
    EXPECT(gathered[MK_PARTICLE_VELOCITY_X] == 1 && gathered[MK_PARTICLE_PHASE] == 0 && gathered[MK_PARTICLE_PSI_POS] == 3 &&
           gathered[MK_PARTICLE_PARAMETER1] == 192 && gathered[MK_PARTICLE_PARAMETER2] == 64);
}

static void refused_gathers(void) {
    float kept[MK_PARTICLE_FLOATS];
    const float given[2] = {1, NAN};
    const uint32_t failure[1] = {0};
    memcpy(kept, gathered, sizeof gathered);
    mk_refusal refused = mk_grid_to_particle_first_half2(1.0f, 1.0f, 2, 1, LENT(region), LENT(range), 1, LENT(gathered),
                                                         LENT(gathered_flags), LENT(flow), LENT(no_flags));
    EXPECT(refused.number == MK_REFUSED_CODE && refused.index == 0);
    refused = mk_grid_to_particle_first_half2(2.0f, 1.0f, 0, 1, LENT(region), LENT(range), 1, LENT(gathered), LENT(gathered_flags), flow,
                                              NODES - 1, LENT(no_flags));
    EXPECT(refused.number == MK_REFUSED_LENGTH && refused.index == 0);
    refused = mk_grid_to_particle_second_half2(1, LENT(gathered), LENT(gathered_flags), LENT(given), LENT(failure));
    EXPECT(refused.number == MK_REFUSED_NOT_FINITE && refused.index == 0);
    EXPECT(memcmp(kept, gathered, sizeof kept) == 0 && gathered_flags[MK_PARTICLE_WORD_FAILED] == 1);
    refused = mk_grid_to_particle_second_half2(0, NULL, 0, NULL, 0, NULL, 0, NULL, 0);
    EXPECT(refused.number == MK_DONE && refused.index == 0);
}

/* A fluid of mass 4 and initial volume 2, half way between cells, beside a solid of the same place and mass, over nodes of mass 1. */
static void fluids(void) {
    const uint64_t two[2] = {0, 2};
    float pair[2 * MK_PARTICLE_FLOATS] = {0}, nodes[NODES], kept[2 * MK_PARTICLE_FLOATS];
    uint32_t words[2 * MK_PARTICLE_WORDS] = {[MK_PARTICLE_WORD_FLUID] = 1}, node_words[NODE_WORDS];
    for (int k = 0; k < 2; k++) {
        float *one = pair + MK_PARTICLE_FLOATS * k;
        one[MK_PARTICLE_POSITION_X] = one[MK_PARTICLE_POSITION_Y] = 1.5f;
        one[MK_PARTICLE_MASS] = 4;
        one[MK_PARTICLE_VOLUME0] = 2;
        one[MK_PARTICLE_DEFORMATION_GRADIENT_00] = one[MK_PARTICLE_DEFORMATION_GRADIENT_11] = 7;
    }
    for (int k = 0; k < NODES; k++) {
        nodes[k] = k % MK_NODE_FLOATS == MK_NODE_MASS ? 1 : 3;
    }
    memset(node_words, 0xa5, sizeof node_words);
    memcpy(kept, pair, sizeof pair);
    mk_refusal refused = mk_recompute_fluids_volumes2(NAN, 1, LENT(region), LENT(two), 2, LENT(pair), LENT(words), LENT(nodes),
                                                      LENT(node_words));
    EXPECT(refused.number == MK_REFUSED_SETTING && refused.index == 0 && nodes[0] == 1 && memcmp(pair, kept, sizeof pair) == 0);
    mk_refusal done = mk_recompute_fluids_volumes2(1.0f, 1, LENT(region), LENT(two), 2, LENT(pair), LENT(words), LENT(nodes),
                                                   LENT(node_words));
    EXPECT(done.number == MK_DONE && done.index == 0);
    EXPECT(pair[MK_PARTICLE_DEFORMATION_GRADIENT_00] == 4.0f / 3.0f / 2.0f);
    pair[MK_PARTICLE_DEFORMATION_GRADIENT_00] = 7;
    EXPECT(memcmp(pair, kept, sizeof pair) == 0 && words[MK_PARTICLE_WORD_FLUID] == 1 && words[MK_PARTICLE_WORDS + MK_PARTICLE_WORD_FLUID]
           == 0);
    for (int k = 0; k < NODES; k++) {
        EXPECT(nodes[k] == (k % MK_NODE_FLOATS == MK_NODE_MASS ? 0.0f : 3.0f) && !signbit(nodes[k]));
    }
    EXPECT(node_words[0] == 0xa5a5a5a5 && node_words[15] == 0xa5a5a5a5);
    done = mk_recompute_fluids_volumes2(1.0f, 0, NULL, 0, NULL, 0, 0, NULL, 0, NULL, 0, NULL, 0, NULL, 0);
    EXPECT(done.number == MK_DONE && done.index == 0);
}

static void lengths(void) {
    const float dts[4] = {0.125f, 0.5f, 0.25f, NAN};
    mk_lengths finished = mk_step_lengths(1.0f, 0.5f, 4, 0, 4, dts, 4), one = mk_step_lengths(1.0f, 0.5f, 4, 1, 4, dts, 4);
    mk_lengths left = mk_step_lengths(1.0f, 0.5f, 4, 0, 2, dts, 2), none = mk_step_lengths(-2.5f, 0.5f, 4, 0, 0, NULL, 0);
    EXPECT(finished.number == MK_DONE && finished.index == 0 && finished.count == 3 && finished.remaining == 0.0f && finished.end ==
           MK_END_FINISHED);
    EXPECT(one.number == MK_DONE && one.index == 0 && one.count == 1 && one.remaining == 0.75f && one.end == MK_END_ONE_SUBSTEP);
    EXPECT(left.number == MK_DONE && left.index == 0 && left.count == 2 && left.remaining == 0.25f && left.end == MK_END_NO_PROPOSAL);
    EXPECT(none.number == MK_DONE && none.index == 0 && none.count == 0 && none.remaining == -2.5f && none.end == MK_END_FINISHED);
    mk_lengths refused = mk_step_lengths(2.0f, 0.5f, 8, 0, 4, dts, 4);
    EXPECT(refused.number == MK_REFUSED_CODE && refused.index == 3 && refused.count == 0 && refused.remaining == 0.0f && refused.end == 0);
    refused = mk_step_lengths(1.0f, 0.5f, 4, 2, 4, dts, 4);
    EXPECT(refused.number == MK_REFUSED_CODE && refused.index == 0);
    refused = mk_step_lengths(1.0f, 0.5f, 4, 0, 3, dts, 4);
    EXPECT(refused.number == MK_REFUSED_LENGTH && refused.index == 0 && refused.count == 0);
    refused = mk_step_lengths(INFINITY, 0.5f, 4, 0, 4, dts, 4);
    EXPECT(refused.number == MK_REFUSED_SETTING && refused.index == 0 && refused.count == 0);
}

/* The same by a loop of one's own. */
static void substeps(void) {
    const float dts[3] = {0.125f, 0.5f, 0.25f}, taken[3] = {0.25f, 0.5f, 0.25f};
    float remaining = 1.0f;
    const mk_least_length fourth = mk_min_dt(1.0f, 4), none = mk_min_dt(1.0f, 0), infinite = mk_min_dt(INFINITY, 0);
    EXPECT(fourth.number == MK_DONE && fourth.index == 0 && fourth.length == 0.25f);
    EXPECT(mk_min_dt(1.0f, 16777217).length == mk_min_dt(1.0f, 16777216).length);
    EXPECT(none.number == MK_REFUSED_CODE && none.index == 0 && none.length == 0.0f);
    EXPECT(infinite.number == MK_REFUSED_SETTING && infinite.index == 0 && infinite.length == 0.0f);
    for (int k = 0; k < 3; k++) {
        mk_taken_substep substep = mk_substep(remaining, fourth.length, 0.5f, dts[k]);
        EXPECT(substep.number == MK_DONE && substep.index == 0 && substep.length == taken[k]);
        remaining = substep.remaining;
    }
    EXPECT(remaining == 0.0f);
    mk_taken_substep refused = mk_substep(remaining, fourth.length, 0.5f, 0.5f);
    EXPECT(refused.number == MK_REFUSED_CODE && refused.index == 0 && refused.length == 0.0f && refused.remaining == 0.0f);
    refused = mk_substep(1.0f, NAN, 0.5f, 0.5f);
    EXPECT(refused.number == MK_REFUSED_SETTING && refused.index == 0 && refused.length == 0.0f && refused.remaining == 0.0f);
}

/* Document 01's listing as a text, and its answer. */
#define ZERO "\t00000000"
#define ONE "\t3F800000"
#define NODE(at, mass) "n\t" at "\t" mass "\t" mass ZERO ONE ZERO "\n"
static const char listing[] = "w" ONE ONE ZERO ZERO "\n"
                              "r\t0\t0\t1\n"
                              "p" ONE ONE ONE ZERO ZERO ZERO ZERO ZERO ZERO ZERO ZERO ZERO "\t42800000" ONE ZERO ZERO ZERO "\t0\n";
static const char listed[] = NODE("0\t0", "3F800000") NODE("1\t0", "40C00000") NODE("2\t0", "3F800000")
                             NODE("0\t1", "40C00000") NODE("1\t1", "42100000") NODE("2\t1", "40C00000")
                             NODE("0\t2", "3F800000") NODE("1\t2", "40C00000") NODE("2\t2", "3F800000") "ok\t9\n";

/* The listing's answer in room for any, in just as much as it wants, and in one byte less; without its last line feed; and of no byte. */
static void listings(void) {
    static uint8_t text[sizeof listing - 1], out[MK_LISTING_BYTES], kept[MK_LISTING_BYTES];
    const size_t length = sizeof listed - 1;
    memcpy(text, listing, sizeof text);
    memset(out, 0xa5, sizeof out);
    memset(kept, 0xa5, sizeof kept);
    EXPECT(mk_bench(LENT(text), out, length - 1) == 0 && memcmp(out, kept, sizeof out) == 0);
    EXPECT(mk_bench(LENT(text), NULL, 0) == 0);
    memcpy(kept, listed, length);
    EXPECT(mk_bench(LENT(text), LENT(out)) == length && memcmp(out, kept, sizeof out) == 0);
    memset(out, 0xa5, length);
    EXPECT(mk_bench(LENT(text), out, length) == length && memcmp(out, kept, sizeof out) == 0);
    EXPECT(mk_bench(text, sizeof text - 1, LENT(out)) == 8 && memcmp(out, "no\t11\t2\n", 8) == 0);
    EXPECT(mk_bench(NULL, 0, LENT(out)) == 8 && memcmp(out, "no\t11\t0\n", 8) == 0);
}

int main(void) {
    ids_in_2d();
    stencils_in_2d();
    ids_in_3d();
    stencils_in_3d();
    floats();
    plane();
    cells();
    lookups();
    nodes();
    scatters();
    refused_scatters();
    every_refusal();
    build_wall();
    updates();
    sequences();
    refused_updates();
    build_flow();
    gathers();
    refused_gathers();
    fluids();
    lengths();
    substeps();
    listings();
    return wrong;
}
