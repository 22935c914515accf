/*
 * A whole host in C: a block of particles falls onto a floor, for some substeps. It shows what the library wants of a host and a host in C
 * has to make by itself: particles in the order of their regions, every region that a stencil reaches in the list, and a projection for
 * each cell and collider. Its material resists nothing, so that a law's place is only marked.
 */
#include "mangerknot.h"

#include <stdio.h>
#include <stdlib.h>
#include <string.h>

enum { SIDE = 12, PARTICLES = SIDE * SIDE, MOST_REGIONS = 64, MOST_NODES = MOST_REGIONS * MK_CELLS_OF_REGION, SUBSTEPS = 40 };

static const float width = 1.0f, dt = 0.01f, floor_y = 9.5f;

/* The particles, and the lists that a call is lent beside them. */
static float floats[PARTICLES][MK_PARTICLE_FLOATS];
static uint32_t words[PARTICLES][MK_PARTICLE_WORDS];
static uint64_t ids[MOST_REGIONS], ranges[MOST_REGIONS][MK_RANGE_WORDS];
static size_t regions, nodes;
static float node_floats[MOST_NODES][MK_NODE_FLOATS], points[MOST_NODES][MK_PROJECTION_FLOATS];
static uint32_t node_words[MOST_NODES][MK_NODE_WORDS], insides[MOST_NODES][MK_PROJECTION_WORDS];
static float given[PARTICLES][MK_GIVEN_FLOATS];
static uint32_t failed[PARTICLES][MK_GIVEN_WORDS];

/* So many records of a list, as a call takes them: a pointer to the first entry, and how many entries there are. */
#define RECORDS(list, count) *(list), sizeof *(list) / sizeof **(list) * (count)

static void made(const char *call, mk_refusal a) {
    if (a.number != MK_DONE) {
        printf("%s is refused: number %u, index %zu\n", call, (unsigned)a.number, a.index);
        exit(1);
    }
}

static mk_point2 position(const float *particle) {
    mk_point2 point = {particle[MK_PARTICLE_POSITION_X], particle[MK_PARTICLE_POSITION_Y]};
    return point;
}

static int by_id(const void *a, const void *b) {
    const uint64_t *one = a, *other = b;
    return (*one > *other) - (*one < *other);
}

static int by_region(const void *a, const void *b) {
    uint64_t one = mk_region_associated_to_point2(width, position(a)), other = mk_region_associated_to_point2(width, position(b));
    return by_id(&one, &other);
}

/* Every region that a stencil reaches, ascending, each once. */
static void list_regions(void) {
    static uint64_t reached[PARTICLES * MK_STENCIL_CELLS];
    for (size_t k = 0; k < PARTICLES; k++) {
        mk_ids9 stencil = mk_stencil_ids2(mk_cell_associated_to_point2(width, position(floats[k])));
        for (size_t j = 0; j < MK_STENCIL_CELLS; j++) {
            reached[k * MK_STENCIL_CELLS + j] = mk_region_of(stencil.ids[j]);
        }
    }
    qsort(reached, PARTICLES * MK_STENCIL_CELLS, sizeof *reached, by_id);
    regions = 0;
    for (size_t k = 0; k < PARTICLES * MK_STENCIL_CELLS && regions < MOST_REGIONS; k++) {
        if (regions == 0 || ids[regions - 1] != reached[k]) {
            ids[regions++] = reached[k];
        }
    }
    nodes = regions * MK_CELLS_OF_REGION;
}

/* Particles by regions, and for each region where its own begin and how many they are. All words are 0 here, or they would go along. */
static void sort_particles(void) {
    qsort(floats, PARTICLES, sizeof *floats, by_region);
    list_regions();
    size_t k = 0;
    for (size_t r = 0; r < regions; r++) {
        ranges[r][MK_RANGE_START] = k;
        while (k < PARTICLES && mk_region_associated_to_point2(width, position(floats[k])) == ids[r]) {
            k++;
        }
        ranges[r][MK_RANGE_COUNT] = k - ranges[r][MK_RANGE_START];
    }
}

/* The floor, as the one collider: the nearest point of its surface for the centre of each cell, and whether that centre is below it. */
static void project(void) {
    for (size_t k = 0; k < nodes; k++) {
        mk_point2 centre = mk_cell_center2(width, mk_cell_of_region2(ids[k / MK_CELLS_OF_REGION], k % MK_CELLS_OF_REGION));
        points[k][MK_PROJECTION_POINT_X] = centre.x;
        points[k][MK_PROJECTION_POINT_Y] = floor_y;
        insides[k][MK_PROJECTION_WORD_INSIDE] = centre.y < floor_y;
    }
}

static void substep(void) {
    const float friction[MK_COLLIDER_FLOATS] = {0.5f};
    const mk_vector2 gravity = {0, -10};
    sort_particles();
    project();
    /* Here a law sets every particle's stress. */
    made("clear, scatter and update",
         mk_clear_scatter_update2(width, dt, gravity, MK_BOUNDARY_FRICTION, 0, regions, ids, regions, RECORDS(ranges, regions),
                                  PARTICLES, RECORDS(floats, PARTICLES), RECORDS(words, PARTICLES), 1, friction, 1,
                                  RECORDS(points, nodes), RECORDS(insides, nodes), RECORDS(node_floats, nodes),
                                  RECORDS(node_words, nodes)));
    made("the first half of gather",
         mk_grid_to_particle_first_half2(width, dt, 0, regions, ids, regions, RECORDS(ranges, regions), PARTICLES,
                                         RECORDS(floats, PARTICLES), RECORDS(words, PARTICLES), RECORDS(node_floats, nodes),
                                         RECORDS(node_words, nodes)));
    /* Here it may rewrite F, and says what it finds of every particle. */
    for (size_t k = 0; k < PARTICLES; k++) {
        given[k][MK_GIVEN_DENSITY] = 1;
    }
    made("the second half of gather",
         mk_grid_to_particle_second_half2(PARTICLES, RECORDS(floats, PARTICLES), RECORDS(words, PARTICLES),
                                          RECORDS(given, PARTICLES), RECORDS(failed, PARTICLES)));
}

/* A block of particles, four to a cell, whose foot is 1.5 above the floor. */
static void fill(void) {
    memset(floats, 0, sizeof floats);
    for (size_t k = 0; k < PARTICLES; k++) {
        floats[k][MK_PARTICLE_POSITION_X] = 10.25f + 0.5f * (float)(k % SIDE);
        floats[k][MK_PARTICLE_POSITION_Y] = 11.25f + 0.5f * (float)(k / SIDE);
        floats[k][MK_PARTICLE_MASS] = 0.25f;
        floats[k][MK_PARTICLE_VOLUME0] = 0.25f;
        floats[k][MK_PARTICLE_DEFORMATION_GRADIENT_00] = floats[k][MK_PARTICLE_DEFORMATION_GRADIENT_11] = 1;
    }
}

int main(void) {
    fill();
    for (int k = 0; k < SUBSTEPS; k++) {
        substep();
    }
    double mass = 0;
    for (size_t k = 0; k < nodes; k++) {
        mass += (double)node_floats[k][MK_NODE_MASS];
    }
    float lowest = floats[0][MK_PARTICLE_POSITION_Y];
    for (size_t k = 1; k < PARTICLES; k++) {
        float y = floats[k][MK_PARTICLE_POSITION_Y];
        lowest = y < lowest ? y : lowest;
    }
    printf("%zu regions, mass %.4f, lowest %.2f\n", regions, mass, (double)lowest);
    return 0;
}
