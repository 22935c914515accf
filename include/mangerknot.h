/*
 * Mangerknot's functions for C and C++, and for whatever calls C: the core of a material point solver in the plane. Link libboundary.a
 * (`rt lib` in crates/boundary leaves it in out/ there), which is for x86-64 Linux; of the C library it wants memcpy and its kin.
 *
 * Every function takes any input and ends; what it answers, and what it leaves in memory that it is lent, is proved (docs/CLAIMS.md).
 * Numbers and structs cross by value. A flag crosses as a uint32_t, 0 or 1. A name that ends with 2 or 3 is of the plane or of space.
 *
 * Lent memory: behind each pointer stands the count of the entries (not bytes) that it points to; a pointer may be NULL only with a count
 * of 0. A function stays within those entries, keeps no pointer, and allocates nothing. It writes only to entries without const, and only
 * where it answers 0, MK_DONE: mk_clear2, the scatters, mk_grid_update2 and mk_clear_scatter_update2 to nodes, the two halves of gather to
 * particles, mk_recompute_fluids_volumes2 to both. Where a call refuses, all lent memory is as it was. mk_bench alone is different, and
 * says how.
 *
 * What no function can check, and the caller has to see to:
 *   - a pointer is valid for as many entries as its count says, for writing too where it has no const, until the call returns;
 *   - it is aligned as C aligns its type: 4 bytes for float and uint32_t, 8 for uint64_t, none for uint8_t;
 *   - entries that are written overlap no others of the same call. Entries that are only read may overlap each other;
 *   - nobody else writes to what a call is lent while it runs. There is no other memory that calls share: on memory of their own, calls may
 *     run in as many threads as one likes;
 *   - floats are computed in the mode that a program starts in: to nearest, subnormal numbers kept, no traps. Code that changes it (MXCSR,
 *     fesetround, feenableexcept, a program linked by -ffast-math) gets other answers or traps;
 *   - the answer is looked at: a refused call has done nothing.
 * Structs are handed over and answered as C has it on x86-64 Linux (the System V convention), which a C or C++ compiler sees to; whoever
 * calls from another language has to declare these structs with the same fields in the same order.
 *
 * Floats: every NaN is taken, and an answered NaN may have any NaN's pattern; mk_to_bits gives every NaN the pattern 7FC00000. Lent
 * NaNs keep their patterns where a call refuses: that is tested and not proved.
 * The gate compares this file, its constants too, with the functions' source and with the archive's symbols (.ci/header).
 */
#ifndef MANGERKNOT_H
#define MANGERKNOT_H

#include <stddef.h>
#include <stdint.h>

#ifdef __cplusplus
extern "C" {
#endif

/* ---- Limits, and the sizes of records in lent memory ---- */

/* The most regions, particles and colliders that a call takes; more are refused with MK_REFUSED_LIMIT. */
#define MK_MAX_REGIONS 512
#define MK_MAX_PARTICLES 65536
#define MK_MAX_COLLIDERS 16

/* The least and the largest cell width, 2^-20 and 2^20; others are refused with MK_REFUSED_SETTING. */
#define MK_MIN_CELL_WIDTH 0.00000095367431640625f
#define MK_MAX_CELL_WIDTH 1048576.0f

/* The first and the last cell, on each axis, that may be nearest to a particle; others are refused with MK_REFUSED_OFF_GRID. */
#define MK_FIRST_CELL 1
#define MK_LAST_CELL 65535

/* The cells of a region of the plane, 4 by 4, each of which has a node. */
#define MK_CELLS_OF_REGION 16
/* The cells of a stencil of the plane, 3 by 3. */
#define MK_STENCIL_CELLS 9
/* A region's id is the id of its first cell, under this mask: its low 12 bits are 0. */
#define MK_REGION_ID_MASK UINT64_C(0xfffffffffffff000)

/*
 * How many floats and how many words (uint32_t) a record has. Records of a kind lie one behind the other, floats and words each in a list
 * of their own: the floats of record k begin at k times the first number, its words at k times the second.
 */
#define MK_NODE_FLOATS 7
#define MK_NODE_WORDS 1
#define MK_PARTICLE_FLOATS 26
#define MK_PARTICLE_WORDS 4
/* A collider has no word: its record is its friction. */
#define MK_COLLIDER_FLOATS 1
#define MK_PROJECTION_FLOATS 2
#define MK_PROJECTION_WORDS 1
/* What is given of a particle to the second half of gather. */
#define MK_GIVEN_FLOATS 2
#define MK_GIVEN_WORDS 1
/* A region's range is two uint64_t. */
#define MK_RANGE_WORDS 2

/* Where a node's fields stand among its floats. */
enum {
    MK_NODE_MASS = 0,
    MK_NODE_MOMENTUM_X = 1,
    MK_NODE_MOMENTUM_Y = 2,
    MK_NODE_VELOCITY_X = 3,     /* the momentum with gravity's share, over the mass */
    MK_NODE_VELOCITY_Y = 4,
    MK_NODE_PSI_MOMENTUM = 5,   /* of the particles that can crack: their psi times their mass */
    MK_NODE_PSI_MASS = 6        /* of the same: their mass */
};

/* Where a node's fields stand among its words. */
enum {
    MK_NODE_WORD_BOUNDARY = 0   /* not 0 once the centre of its cell was inside a collider */
};

/* Where a particle's fields stand among its floats. All have to be finite. A matrix lies by rows: 00, 01, 10, 11. */
enum {
    MK_PARTICLE_POSITION_X = 0,
    MK_PARTICLE_POSITION_Y = 1,
    MK_PARTICLE_VELOCITY_X = 2,
    MK_PARTICLE_VELOCITY_Y = 3,
    MK_PARTICLE_VELOCITY_GRADIENT_00 = 4,
    MK_PARTICLE_VELOCITY_GRADIENT_01 = 5,
    MK_PARTICLE_VELOCITY_GRADIENT_10 = 6,
    MK_PARTICLE_VELOCITY_GRADIENT_11 = 7,
    MK_PARTICLE_STRESS_00 = 8,                  /* the host's model's, over the initial volume (Kirchhoff's), above 0 where it pulls; no call writes it */
    MK_PARTICLE_STRESS_01 = 9,
    MK_PARTICLE_STRESS_10 = 10,
    MK_PARTICLE_STRESS_11 = 11,
    MK_PARTICLE_MASS = 12,
    MK_PARTICLE_VOLUME0 = 13,                   /* the initial volume */
    MK_PARTICLE_PHASE = 14,                     /* above 0 until it cracks, then 0 */
    MK_PARTICLE_CRACK_PROPAGATION_FACTOR = 15,  /* 0: it cannot crack */
    MK_PARTICLE_PSI_POS = 16,                   /* the largest energy that it was given so far */
    MK_PARTICLE_DEFORMATION_GRADIENT_00 = 17,   /* F; of a fluid, this entry is its volume over the initial one */
    MK_PARTICLE_DEFORMATION_GRADIENT_01 = 18,
    MK_PARTICLE_DEFORMATION_GRADIENT_10 = 19,
    MK_PARTICLE_DEFORMATION_GRADIENT_11 = 20,
    MK_PARTICLE_CRACK_THRESHOLD = 21,
    MK_PARTICLE_PARAMETER1 = 22,                /* psi times mass, by the second half of gather */
    MK_PARTICLE_PARAMETER2 = 23,                /* the mass, by the second half of gather */
    MK_PARTICLE_KINEMATIC_VEL_X = 24,           /* the velocity of a kinematic particle */
    MK_PARTICLE_KINEMATIC_VEL_Y = 25
};

/* Where a particle's fields stand among its words. Each is 0 or 1. */
enum {
    MK_PARTICLE_WORD_FAILED = 0,    /* its stress and psi reach no node */
    MK_PARTICLE_WORD_KINEMATIC = 1, /* it moves by its kinematic velocity, whatever the nodes have */
    MK_PARTICLE_WORD_FLUID = 2,     /* a fluid; else a solid */
    MK_PARTICLE_WORD_IS_STATIC = 3  /* the second half of gather stills it; the first half still moves it by what the nodes have */
};

/* Where the fields of a collider, of a projection, and of what is given of a particle stand. All floats have to be finite, words 0 or 1. */
enum {
    MK_COLLIDER_FRICTION = 0,
    MK_PROJECTION_POINT_X = 0,      /* the point of the collider's surface that its shape has for the centre of a cell */
    MK_PROJECTION_POINT_Y = 1,
    MK_PROJECTION_WORD_INSIDE = 0,  /* 1 where that centre is inside the collider */
    MK_GIVEN_DENSITY = 0,
    MK_GIVEN_ENERGY = 1,
    MK_GIVEN_WORD_FAILED = 0        /* 1 where the host's model says that it failed */
};

/* Where the fields of a region's range stand. */
enum {
    MK_RANGE_START = 0, /* its first particle, by its place among all */
    MK_RANGE_COUNT = 1  /* how many particles it has */
};

/* What is done at a boundary. */
enum {
    MK_BOUNDARY_NONE = 0,
    MK_BOUNDARY_STICK = 1,
    MK_BOUNDARY_FRICTION = 2,
    MK_BOUNDARY_FRICTION_Z_UP = 3   /* acts as MK_BOUNDARY_FRICTION does */
};

/* The bits of simulation_dofs: along which axes nothing moves. */
enum {
    MK_LOCK_X = 1,
    MK_LOCK_Y = 2
};

/*
 * What a call answers: MK_DONE, or the number of the rule that it is refused by. Of several rules that are broken the least is answered,
 * with the index of the first record that breaks it (counted from 0), and then nothing was written. Each function says which of these it
 * can answer; what it is not given it does not look at.
 */
enum {
    MK_DONE = 0,
    /* A count of entries is not what its count of records asks for. Index 0. */
    MK_REFUSED_LENGTH = 1,
    /* More than 512 regions, 65,536 particles or 16 colliders. Index 0. */
    MK_REFUSED_LIMIT = 2,
    /*
     * The cell width is not from 2^-20 to 2^20, dt is not above 0, or they or a part of gravity are not finite. Index 0. The
     * functions of lengths say what it is to them.
     */
    MK_REFUSED_SETTING = 3,
    /*
     * A code, flag or place is out of range. Looked for in this order:
     *   - a place is no region's, boundary handling or locks are above 3, modified eigenerosion is above 1: index 0;
     *   - an entry of an order is no region's place, is named again, or has a lower colour than the entry before it: the entry's index;
     *   - one of a particle's words is above 1: the particle's index;
     *   - the word of what is given of a particle is above 1: the particle's index;
     *   - a projection's word is above 1: the projection's index.
     * The functions of lengths say what it is to them.
     */
    MK_REFUSED_CODE = 4,
    /*
     * A float is a NaN or infinite: of a particle, then of what is given of a particle or of a collider, then of a projection. The index is
     * that record's, of what is given the particle's.
     */
    MK_REFUSED_NOT_FINITE = 5,
    /* A region's id is not above the one before it, or has one of its low 12 bits set. */
    MK_REFUSED_REGION_IDS = 6,
    /*
     * A region's start is not the sum of the counts before it, or its count goes beyond the last particle; where particles are left over
     * behind the last region, the index is the number of regions.
     */
    MK_REFUSED_COVER = 7,
    /* A particle's nearest cell is not from 1 to 65,535 on an axis. */
    MK_REFUSED_OFF_GRID = 8,
    /* The first cell of a particle's stencil is not in the region that has the particle. */
    MK_REFUSED_OUT_OF_REGION = 9,
    /* A region that a particle's stencil reaches is not listed. */
    MK_REFUSED_UNLISTED = 10,
    /* A line of a bench listing cannot be read; it stands before all others. The text that mk_bench writes has it, no mk_refusal does. */
    MK_REFUSED_UNREADABLE = 11
};

/* How a step ended. */
enum {
    MK_END_FINISHED = 0,    /* nothing above 0 remains */
    MK_END_ONE_SUBSTEP = 1, /* one substep was done, and no more asked for */
    MK_END_NO_PROPOSAL = 2  /* something remains, and no proposal is left */
};

/* Whether a call was refused: MK_DONE and 0 where it was done, else the number of a rule and the index that belongs to it. */
typedef struct {
    uint32_t number;
    size_t index;
} mk_refusal;

/* ---- Ids of the cells of a sparse grid, in 2D and 3D ---- */

/*
 * A cell's coordinates in one number. In 2D an id keeps 28 bits of x and y: bits 0 and 1 of x are its bits 6 and 7, those of y its bits 8
 * and 9, and from bit 12 on the others follow, x and y in turn. In 3D the low pairs of x, y and z are at bits 6, 8 and 10, the others from
 * bit 12 on, x, y, z in turn; so it keeps 20 bits of x, of which sums drop the last, and 19 of y and z. All other bits of an id are stray.
 * These functions refuse nothing.
 */

/* The coordinates of a cell of the plane. */
typedef struct {
    uint32_t x;
    uint32_t y;
} mk_cell2;

/* The coordinates of a cell in space. */
typedef struct {
    uint32_t x;
    uint32_t y;
    uint32_t z;
} mk_cell3;

/* Three ids: the neighbours of a region of the plane. */
typedef struct {
    uint64_t ids[3];
} mk_ids3;

/* Seven ids: the neighbours of a region in space. */
typedef struct {
    uint64_t ids[7];
} mk_ids7;

/* Nine ids: a stencil of the plane. */
typedef struct {
    uint64_t ids[9];
} mk_ids9;

/* Twenty-seven ids: a stencil in space. */
typedef struct {
    uint64_t ids[27];
} mk_ids27;

/* The sum of the numbers that the bits of mask hold in i and in j, in these bits again; all others are 0. */
uint64_t mk_masked_add(uint64_t mask, uint64_t i, uint64_t j);
/* The region of a cell, in 2D and 3D: its id with the low 12 bits zero. */
uint64_t mk_region_of(uint64_t cell_id);

/* The id of the cell at x, y; bits of them that an id does not keep are dropped. */
uint64_t mk_pack2(uint32_t x, uint32_t y);
/* The id of the cell at x, y, z; bits of them that an id does not keep are dropped. */
uint64_t mk_pack3(uint32_t x, uint32_t y, uint32_t z);
/* The id of the cell at x, y, which may be below 0: of their two's complement. */
uint64_t mk_packi2(int32_t x, int32_t y);
/* The id of the cell at x, y, z, which may be below 0: of their two's complement. */
uint64_t mk_packi3(int32_t x, int32_t y, int32_t z);
/* The coordinates of an id of the plane, whatever its stray bits. */
mk_cell2 mk_unpack2(uint64_t xy);
/* The coordinates of an id in space, whatever its stray bits. */
mk_cell3 mk_unpack3(uint64_t xyz);
/* The id of the sum of two cells, axis by axis, each wrapping; stray bits are ignored and answered 0. */
uint64_t mk_packed_add2(uint64_t i, uint64_t j);
/* The same in space, where a sum of x keeps 19 bits. */
uint64_t mk_packed_add3(uint64_t i, uint64_t j);
/* The cell less 1 on every axis, wrapping. */
uint64_t mk_shift_cell_neg_one2(uint64_t cell_id);
/* The same in space. */
uint64_t mk_shift_cell_neg_one3(uint64_t cell_id);
/* The cell less 2 on every axis, wrapping. */
uint64_t mk_shift_cell_neg_two2(uint64_t cell_id);
/* The same in space. */
uint64_t mk_shift_cell_neg_two3(uint64_t cell_id);
/* The cell plus 5 on every axis, wrapping. */
uint64_t mk_shift_cell_plus_five2(uint64_t cell_id);
/* The same in space. */
uint64_t mk_shift_cell_plus_five3(uint64_t cell_id);
/* The number of a cell in its region, 0 to 15: of the low two bits of its coordinates, 4 y + x. */
uint64_t mk_number_in_region2(uint64_t cell_id);
/* The same in space, 0 to 63: 16 z + 4 y + x. */
uint64_t mk_number_in_region3(uint64_t cell_id);
/* The cell of a region by its number, which is taken modulo 16. */
uint64_t mk_cell_of_region2(uint64_t region_id, uint64_t number);
/* The same in space, modulo 64. */
uint64_t mk_cell_of_region3(uint64_t region_id, uint64_t number);
/* 1 where the region has the colour, 0 where not; colours are 0 to 3, bits 12 and 13 of an id, and no region has another. */
uint32_t mk_is_in_region_with_color2(uint64_t region_id, uint64_t color);
/* The same in space, where colours are 0 to 7, bits 12 to 14 of an id. */
uint32_t mk_is_in_region_with_color3(uint64_t region_id, uint64_t color);
/* The regions, other than its own, that stencils of a region's cells reach, in the order of mk_nbh_region_shifts2. */
mk_ids3 mk_region_neighbors2(uint64_t region_id);
/* The same in space, in the order of mk_nbh_region_shifts3. */
mk_ids7 mk_region_neighbors3(uint64_t region_id);
/* The packed shifts from a cell to the cells of its stencil: (2,2) (2,0) (2,1) (0,2) (0,0) (0,1) (1,2) (1,0) (1,1), in this order. */
mk_ids9 mk_nbh_shifts2(void);
/* The same in space, by 2, 0, 1 on each axis: z changes last, y first. */
mk_ids27 mk_nbh_shifts3(void);
/* The packed shifts from a region to its neighbours: (0,4) (4,4) (4,0), in this order. */
mk_ids3 mk_nbh_region_shifts2(void);
/* The same in space: (0,0,4) (0,4,0) (0,4,4) (4,0,0) (4,0,4) (4,4,0) (4,4,4), in this order. */
mk_ids7 mk_nbh_region_shifts3(void);
/* The ids of a cell's stencil, in the order of mk_nbh_shifts2. */
mk_ids9 mk_stencil_ids2(uint64_t cell_id);
/* The same in space, in the order of mk_nbh_shifts3. */
mk_ids27 mk_stencil_ids3(uint64_t cell_id);

/* ---- Float rules and the kernel ---- */

/* Each operation is rounded once, to nearest with ties to even. These functions refuse nothing. */

/* A vector of the plane. */
typedef struct {
    float x;
    float y;
} mk_vector2;

/* A point of the plane. */
typedef struct {
    float x;
    float y;
} mk_point2;

/* The weights of three nodes in a row, first to last. */
typedef struct {
    float weights[3];
} mk_weights;

/* The same along each axis of the plane; the weight of a node is the product of its two. */
typedef struct {
    float x[3];
    float y[3];
} mk_weights2;

/* The 32 bits of x; of every NaN, 7FC00000. */
uint32_t mk_to_bits(float x);
/* The float that has these bits; of every NaN's bits, a NaN. */
float mk_from_bits(uint32_t b);
/* The nearest whole number, halves away from zero, with x's sign; infinities and NaN answer themselves. */
float mk_round(float x);
/* x without its fraction; 0 where it is below 0 or a NaN, 4294967295 where it is above that. */
uint32_t mk_to_u32(float x);
/* The float nearest to n, ties to even. */
float mk_from_u32(uint32_t n);
/* The float nearest to the root of x; both zeros and the infinity answer themselves, a NaN and what is below zero a NaN. */
float mk_root(float x);
/* 1 / e, and 0 for a zero. */
float mk_inv_exact(float e);
/* The larger; the number if one side is a NaN; +0 of two zeros. */
float mk_max(float a, float b);
/* x without its sign. */
float mk_abs(float x);
/* 1 with x's sign, also of a zero; a NaN for a NaN. */
float mk_signum(float x);
/* 4 / cell_width^2. */
float mk_inv_d(float cell_width);
/* The weights of the three nodes around a point that lies x beyond the first of them, in cells. */
mk_weights mk_eval_all(float x);
/* The weight of a node at the distance x, in cells; 0 from 3/2 on, and at a NaN. */
float mk_eval(float x);
/* The derivative of that weight at x; 0 from 3/2 on, and at a NaN. */
float mk_eval_derivative(float x);
/* The weights of each axis, for a particle whose first node lies at this vector from it; h is the cell width. */
mk_weights2 mk_precompute_weights2(mk_vector2 ref_elt_pos_minus_particle_pos, float h);
/* The weight of a node that lies at this vector from a particle. */
float mk_stencil_with_dir2(mk_vector2 elt_pos_minus_particle_pos, float h);
/* The weight of a node and a particle at two points. */
float mk_stencil2(mk_point2 elt_pos, mk_point2 particle_pos, float h);
/* The gradient of the weight of a node that lies at this vector from a particle. */
mk_vector2 mk_stencil_gradient_with_dir2(mk_vector2 elt_pos_minus_particle_pos, float h);
/* The gradient of the weight of a node and a particle at two points. */
mk_vector2 mk_stencil_gradient2(mk_point2 elt_pos, mk_point2 particle_pos, float h);

/* ---- Cells of points, and nodes in lent memory ---- */

/* Where an id stands in a list: found is 1 and place its place, or both are 0. */
typedef struct {
    uint32_t found;
    size_t place;
} mk_found_place;

/* The centre of the cell that is nearest to a point. */
mk_point2 mk_cell_pos_closest_to_point2(float cell_width, mk_point2 pt);
/* The id of that cell; a coordinate is 0 where it is below 0 or a NaN, and at most 2^32 - 1, of which an id keeps 28 bits. */
uint64_t mk_cell_at_point2(float cell_width, mk_point2 pt);
/* The id of the first cell of a point's stencil: that cell, less one on each axis (of 0, the last one). */
uint64_t mk_cell_associated_to_point2(float cell_width, mk_point2 pt);
/* The region of that first cell, which has to have a particle that stands at the point. */
uint64_t mk_region_associated_to_point2(float cell_width, mk_point2 pt);
/* The centre of a cell, its coordinates times the cell width, whatever stray bits its id has. */
mk_point2 mk_cell_center2(float cell_width, uint64_t cell_id);
/* The place of an id in a list that strictly ascends. In any other list it may not be found; what is found stands there. */
mk_found_place mk_lookup(const uint64_t *ids, size_t ids_len, uint64_t id);
/*
 * Every node of every listed region becomes all +0, flag off. A region has 16 nodes, by the cell's number in it, and regions lie in the
 * order of their ids, which strictly ascend: the node of cell c of the region at place r is record 16 r + c. So ids has as many entries as
 * there are regions, node_floats 16 times 7 and node_words 16 times as many. Refuses 1, 2 and 6.
 */
mk_refusal mk_clear2(size_t regions, const uint64_t *ids, size_t ids_len, float *node_floats, size_t node_floats_len,
                     uint32_t *node_words, size_t node_words_len);

/* ---- Scatter: from particles to nodes ---- */

/*
 * Every particle adds to mass, momentum and psi of the nine nodes of its stencil, and each of these gets a new velocity: by colours 0
 * to 3, in each by regions as listed, in each by particles, in each by the stencil's order. A node that no particle reaches keeps every
 * bit. A result that overflows is stored as it is.
 *
 * Of a particle with mass m, velocity v, velocity gradient G, stress S (zero where it failed) and initial volume V0, a node that has the
 * weight w and lies at dpt from it gets, with A = m G - ((V0 mk_inv_d(cell_width)) dt) S: mass + w m; momentum + w (A dpt + m v); psi
 * mass + w k and psi momentum + w (k psi), where k is m if phase is above 0, the crack factor not 0 and the particle not failed, else 0.
 * Then its velocity is (momentum + (mass gravity) dt) mk_inv_exact(mass).
 *
 * particle_floats has 26 entries for each particle and particle_words 4, as MK_PARTICLE_POSITION_X and those behind it say. ranges has two
 * entries for each region, its start and its count: the particles of a region lie together, regions in the order of their ids. Nodes are
 * as in mk_clear2, and read as they are. Refuses 1 to 10, in 4 the particles' words alone.
 */
mk_refusal mk_particle_to_grid_scatter2(float cell_width, float dt, mk_vector2 gravity, size_t regions, const uint64_t *ids,
                                        size_t ids_len, const uint64_t *ranges, size_t ranges_len, size_t particles,
                                        const float *particle_floats, size_t particle_floats_len, const uint32_t *particle_words,
                                        size_t particle_words_len, float *node_floats, size_t node_floats_len, uint32_t *node_words,
                                        size_t node_words_len);
/*
 * The same for the particles of one region, by its place in the list, on every listed node that they reach. Refuses 1 to 10 of all that it
 * is given, whichever region it is; in 4, ahead of particles, a place that is no region's.
 */
mk_refusal mk_particle_to_grid_scatter_region2(size_t place, float cell_width, float dt, mk_vector2 gravity, size_t regions,
                                               const uint64_t *ids, size_t ids_len, const uint64_t *ranges, size_t ranges_len,
                                               size_t particles, const float *particle_floats, size_t particle_floats_len,
                                               const uint32_t *particle_words, size_t particle_words_len, float *node_floats,
                                               size_t node_floats_len, uint32_t *node_words, size_t node_words_len);
/*
 * The same for all regions in another order, given by their places: each once, no colour (bits 12 and 13 of the id) before a lower one.
 * Whatever order that is, the nodes are those of mk_particle_to_grid_scatter2. order has as many entries as there are regions. Refuses 1 to
 * 10; in 4, ahead of particles, the first entry of the order that breaks this, with its index.
 */
mk_refusal mk_scatter_in_order2(const uint64_t *order, size_t order_len, float cell_width, float dt, mk_vector2 gravity, size_t regions,
                                const uint64_t *ids, size_t ids_len, const uint64_t *ranges, size_t ranges_len, size_t particles,
                                const float *particle_floats, size_t particle_floats_len, const uint32_t *particle_words,
                                size_t particle_words_len, float *node_floats, size_t node_floats_len, uint32_t *node_words,
                                size_t node_words_len);

/* ---- Update: locks and boundaries ---- */

/*
 * boundary_handling is one of MK_BOUNDARY_NONE to MK_BOUNDARY_FRICTION_Z_UP, simulation_dofs 0 or a sum of MK_LOCK_X and MK_LOCK_Y. A
 * collider has one float, its friction. A projection has two floats, the point x, y that a collider's shape has for the centre of a cell,
 * and one word, 1 where that centre is inside and 0 where not; there is one for each region, cell and collider: that of collider j, for
 * cell c of the region at place r, is record (16 r + c) colliders + j. So collider_floats has as many entries as there are colliders,
 * projection_words 16 times as many as regions times colliders, projection_floats twice as many as these. Nodes are as in mk_clear2, and
 * read as they are. Refuses 1 to 6.
 *
 * Every node of every listed region: locked axes of momentum and velocity become 0; then, collider by collider, a flag of 0 becomes 1
 * where the centre is inside, and the velocity v is handled. Stick makes it 0 inside. Both frictions act alike. With e the vector from the
 * point to the centre, n its length, and N = e / n, turned round inside, so that N points out of the collider, and s the part of v
 * along N:
 *   - nothing where e is no longer than about 1.0e-5, which has no direction, or where s is not below 0: v does not go towards the collider;
 *   - inside, or where n is at most the cell width: only the part along the surface is left, t = v - s N, and if its length is above 1.0e-10
 *     it is shortened by friction times -s, at most to 0;
 *   - outside and farther: where v would come nearer than the cell width within dt, its part along N is so much that it comes just there
 *     (v - ((n - cell_width) / dt + s) N); the part along the surface stays.
 * What is not computed keeps every bit, and a result that overflows is stored as it is.
 */
mk_refusal mk_grid_update2(float cell_width, float dt, uint32_t boundary_handling, uint32_t simulation_dofs, size_t regions,
                           const uint64_t *ids, size_t ids_len, size_t colliders, const float *collider_floats,
                           size_t collider_floats_len, const float *projection_floats, size_t projection_floats_len,
                           const uint32_t *projection_words, size_t projection_words_len, float *node_floats, size_t node_floats_len,
                           uint32_t *node_words, size_t node_words_len);
/*
 * mk_clear2, mk_particle_to_grid_scatter2 and mk_grid_update2 in one: the nodes are those of the three calls one after the other.
 * Refuses 1 to 10, of all that it is given; so it is done just where the three are, and where it is not, none of them is begun.
 */
mk_refusal mk_clear_scatter_update2(float cell_width, float dt, mk_vector2 gravity, uint32_t boundary_handling,
                                    uint32_t simulation_dofs, size_t regions, const uint64_t *ids, size_t ids_len,
                                    const uint64_t *ranges, size_t ranges_len, size_t particles, const float *particle_floats,
                                    size_t particle_floats_len, const uint32_t *particle_words, size_t particle_words_len,
                                    size_t colliders, const float *collider_floats, size_t collider_floats_len,
                                    const float *projection_floats, size_t projection_floats_len, const uint32_t *projection_words,
                                    size_t projection_words_len, float *node_floats, size_t node_floats_len, uint32_t *node_words,
                                    size_t node_words_len);

/* ---- Gather: from nodes to particles, in two halves ---- */

/*
 * The first half. Particles and ranges are as in mk_particle_to_grid_scatter2, nodes as in mk_clear2; these are read as they are and not
 * written. modified_eigenerosion is 0 or 1. Refuses 1 to 10.
 *
 * Every particle gets a new velocity and velocity gradient from the nine nodes of its stencil. With modified eigenerosion, and of a
 * particle whose crack factor is not 0 and whose phase is above 0, the phase becomes 0 where crack factor times cell width times the psi
 * of its nodes is above its crack threshold. A kinematic particle has its kinematic velocity instead, and every particle, a static one
 * too, moves by its velocity times dt. Then a solid's deformation gradient F grows by the velocity gradient times dt times F; of a
 * fluid, only F's first entry grows, by the velocity's divergence times dt times that entry. All other fields keep every bit. A result
 * that overflows is stored as it is, and refused when it comes back.
 *
 * The host may then rewrite F.
 */
mk_refusal mk_grid_to_particle_first_half2(float cell_width, float dt, uint32_t modified_eigenerosion, size_t regions,
                                           const uint64_t *ids, size_t ids_len, const uint64_t *ranges, size_t ranges_len,
                                           size_t particles, float *particle_floats, size_t particle_floats_len,
                                           uint32_t *particle_words, size_t particle_words_len, const float *node_floats,
                                           size_t node_floats_len, const uint32_t *node_words, size_t node_words_len);
/*
 * The second half. What is given of each particle, by what the host's models say of it: two floats, a density and an energy, and one
 * word, 1 where it failed and 0 where not. So given_floats has twice as many entries as there are particles, and given_words as many.
 * Refuses 1, 2, 4 and 5.
 *
 * A static particle's velocity and velocity gradient become 0. A particle whose density is given as 0, that has failed already, or
 * that is a solid and has an F whose first entry is above 1.0e4 or below -1.0e4, is failed: F becomes the identity and the velocity
 * gradient 0. Psi becomes the larger of psi and the given energy, parameter1 that times the mass, and parameter2 the mass. A given
 * failure makes the phase 0. All other fields keep every bit. A result that overflows is stored as it is.
 */
mk_refusal mk_grid_to_particle_second_half2(size_t particles, float *particle_floats, size_t particle_floats_len,
                                            uint32_t *particle_words, size_t particle_words_len, const float *given_floats,
                                            size_t given_floats_len, const uint32_t *given_words, size_t given_words_len);

/* ---- Fluids: volumes from masses ---- */

/*
 * Particles and ranges are as in mk_particle_to_grid_scatter2, nodes as in mk_clear2, and read as they are: what mass they hold counts, so
 * that a host clears them first. Refuses 1 to 10, of which 3 is for the cell width and 4 for the particles' words alone.
 *
 * Every particle, a solid too, adds to the mass of the nine nodes of its stencil, in the order of mk_particle_to_grid_scatter2. Then every
 * fluid's mass is divided by the density that the nodes of its stencil have for it, their weighted masses over the cell's area, and the
 * volume that this gives, over the initial volume, becomes F's first entry, whatever it is: a NaN or an infinity is stored as it is, and
 * refused when it comes back. At last the mass of every listed node becomes +0. All other fields keep every bit.
 */
mk_refusal mk_recompute_fluids_volumes2(float cell_width, size_t regions, const uint64_t *ids, size_t ids_len, const uint64_t *ranges,
                                        size_t ranges_len, size_t particles, float *particle_floats, size_t particle_floats_len,
                                        uint32_t *particle_words, size_t particle_words_len, float *node_floats, size_t node_floats_len,
                                        uint32_t *node_words, size_t node_words_len);

/* ---- Lengths: how a step is cut into substeps ---- */

/* What became of a step. Where the number is not MK_DONE, the last three are 0. */
typedef struct {
    uint32_t number;    /* as in mk_refusal */
    size_t index;       /* as in mk_refusal */
    size_t count;       /* how many substeps it took */
    float remaining;    /* what remains of its total */
    uint32_t end;       /* how it ended: MK_END_FINISHED, MK_END_ONE_SUBSTEP or MK_END_NO_PROPOSAL */
} mk_lengths;

/* One substep. Where the number is not MK_DONE, the last two are +0. */
typedef struct {
    uint32_t number;    /* as in mk_refusal */
    size_t index;       /* as in mk_refusal */
    float length;       /* how long it is */
    float remaining;    /* what remains after it */
} mk_taken_substep;

/* The least length of a step's substeps. Where the number is not MK_DONE, the last one is +0. */
typedef struct {
    uint32_t number;    /* as in mk_refusal */
    size_t index;       /* as in mk_refusal */
    float length;       /* how long it is */
} mk_least_length;

/*
 * The lengths of a step from what a host proposes for each substep. As long as more than 0 remains, the next proposal is taken. It has to
 * be above 0, and at most what remains and at most max_substep_dt; where it is below the least length, mk_min_dt, and more than that
 * remains, the substep is that long instead, even beyond max_substep_dt. Before each substep the ends are looked at, in their order; so a
 * single substep that finishes is MK_END_FINISHED, and proposals behind an end are not looked at. A total of 0 or less remains as it is,
 * with a count of 0.
 * max_num_substeps makes the least length and bounds no count. dts has as many entries as there are proposals, with no limit.
 *
 * Refuses 1; 3, where the total or max_substep_dt is not finite (either may be 0 or less); and 4: with index 0 where max_num_substeps is 0
 * or stop_after_one_substep neither 0 nor 1, and after these with a proposal's index where it breaks its rule, as a NaN does.
 */
mk_lengths mk_step_lengths(float total, float max_substep_dt, uint32_t max_num_substeps, uint32_t stop_after_one_substep,
                           size_t proposals, const float *dts, size_t dts_len);
/*
 * One such substep, for a host who proposes one at a time: of what remains, the least length, max_substep_dt and the proposal. A loop of
 * these over what is left each time, as long as that is above 0, leaves what mk_step_lengths answers. Refuses, with index 0, 3, where one
 * of the first three is not finite, and 4, where the proposal breaks its rule; so it is 4 where nothing remains.
 */
mk_taken_substep mk_substep(float remaining_time, float min_dt, float max_substep_dt, float dt);
/*
 * The least length, which such a host asks for once: total over the float nearest to max_num_substeps. Refuses, with index 0, 3, where the
 * total is not finite (it may be 0 or less), and 4, where max_num_substeps is 0.
 */
mk_least_length mk_min_dt(float total, uint32_t max_num_substeps);

/* ---- The bench listing: a text in, a text out ---- */

/* The most regions and particles of a listing, which are fewer than a call's; more are refused with MK_REFUSED_LIMIT. */
#define MK_LISTING_MAX_REGIONS 64
#define MK_LISTING_MAX_PARTICLES 256
/* Room for every answer there is. */
#define MK_LISTING_BYTES 92160

/*
 * Writes the answer to a whole listing to the front of out, and answers how many bytes it has. Where out is too short for all of it,
 * nothing is written and 0 is answered; no answer has 0 bytes, and none more than MK_LISTING_BYTES. Bytes of out behind the answer are as
 * they were, and no NUL is put there. text may have any bytes, NULs too, and need not end with one. It is the one function that wants much
 * of the stack: it takes some 161,300 bytes, so have 192 KiB left. Where a thread has less, the program ends at the stack's guard page, and
 * no other memory is touched.
 *
 * A listing is lines of fields with single tabs between them, each ended by a line feed; floats are 8 upper case hex digits of their bits,
 * other numbers decimal, below 2^64, without leading zeros. One line `w` cell_width dt gravity_x gravity_y; then for each region `r` id
 * start count; then for each particle `p`, its floats from MK_PARTICLE_POSITION_X to MK_PARTICLE_PSI_POS, and whether it failed; its other
 * fields are 0. The nodes of these regions are cleared and the particles scattered. Then each node whose mass is not 0 has a line `n` x y
 * mass momentum_x momentum_y velocity_x velocity_y, in the order of regions and of cells in them, and the last line is `ok` and how many
 * these are. A listing that is refused has the one line `no` number index, with a number from 2 to 11; the index is a record's, of
 * MK_REFUSED_UNREADABLE a line's, counted from 0.
 */
size_t mk_bench(const uint8_t *text, size_t text_len, uint8_t *out, size_t out_len);

#ifdef __cplusplus
}
#endif

#endif
