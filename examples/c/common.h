/*
 * What the examples share: the tables of a small world, a floor on which each of
 * them builds a wall of its own; the request and the body; a number's words, and a
 * route printed.
 */
#ifndef EXAMPLES_COMMON_H
#define EXAMPLES_COMMON_H

#include <stdio.h>

#include "walkprint.h"

#define BYTES(x) (uint8_t *)&(x), sizeof(x)

enum { BUDGET = 64, SX = 7, SY = 4, SZ = 5 };

/*
 * The states, and the shapes of the same number. A door has a box, and lacks
 * WALKPRINT_COLLIDES: who opens it goes through. Air has that bit, and no box.
 */
enum { AIR, STONE, DOOR };
static const uint8_t permissions[] = {7, 7, WALKPRINT_OCCUPIED + WALKPRINT_SUPPORT};
static const walkprint_shape shapes[] = {{0, 0}, {0, 1}, {1, 1}};
static const walkprint_box boxes[] = {{0, 0, 0, 1, 1, 1}, {0, 0, 0, 0.1875, 1, 1}};

static const walkprint_window window = {-2, 0, -2, SX, SY, SZ};
static walkprint_cell cells[SX * SY * SZ];

static const walkprint_request request = {
    .start_x = 0.5, .start_y = 1, .start_z = 0.5,
    .goal_x = 2.5, .goal_y = 1, .goal_z = 0.5,
    .max_range = 16, .step_height = 0.5, .jump_height = 0, .max_drop = 3,
    .node_budget = BUDGET};
static const walkprint_body body = {.width = 0.625, .height = 1.75, .step_height = 0.5};

/* What all calls are asked. */
#define ASKED BYTES(window), BYTES(cells), BYTES(permissions), BYTES(shapes), BYTES(boxes), BYTES(request), BYTES(body)

/* A floor at y = 0, and on it a wall at x = 1, whose block at a height and a z is this one. */
static void build(uint32_t (*wall)(int y, int z)) {
  walkprint_cell *cell = cells; /* x runs fastest, then z, then y */
  for (int y = 0; y < SY; y++)
    for (int z = -2; z < SZ - 2; z++)
      for (int x = -2; x < SX - 2; x++) {
        const uint32_t block = y == 0 ? STONE : x == 1 ? wall(y, z) : AIR;
        *cell++ = (walkprint_cell){block, block};
      }
}

/* A number's words, until the next call. */
static const char *words(uint64_t number) {
  static char text[WALKPRINT_WORD + 1];
  const uint64_t length = walkprint_word(number, (uint8_t *)text, WALKPRINT_WORD);
  text[length] = 0;
  return text;
}

/* Before it goes on to a waypoint, a guide opens the door that is named with it, if that is still shut. */
static void print_route(const walkprint_waypoint *list, uint64_t count) {
  for (uint64_t i = 0; i < count; i++) {
    printf("%d %s %g %g %g lift %g", (int)i, words(WALKPRINT_EDGE_WALK + list[i].movement),
           list[i].x, list[i].y, list[i].z, list[i].lift);
    if (list[i].door != WALKPRINT_NO_DOOR)
      printf(" door %d", (int)list[i].door);
    printf("\n");
  }
  printf("length %g\n", walkprint_length((const uint8_t *)list, count * sizeof list[0]));
}

#endif
