/*
 * A route through a door, from a C program: builds the world's tables, searches
 * a way, prints the route with the doors on it and how long it is, and asks
 * walk-back whether it is one; then the same of a list that is none, which is told
 * why and where. The world is that of scenes/start/door.txt. tools/test-examples
 * builds and runs it.
 */
#include "common.h"

/* The rooms. The output is records here, to be read; there are WALKPRINT_OUT_BYTES(BUDGET) bytes of them. */
static uint8_t nodes[WALKPRINT_NODES_BYTES(BUDGET)];
static uint8_t front[WALKPRINT_FRONT_BYTES(BUDGET)];
static uint8_t slots[WALKPRINT_MOST_INDEX_BYTES]; /* enough for any budget; lent is what this one asks for */
static walkprint_waypoint out[BUDGET + 1];

/* A wall with a door in it, two blocks high, at z = 0. */
static uint32_t wall_with_a_door(int y, int z) {
  return z == 0 && y <= 2 ? DOOR : STONE;
}

/* Says whether the first `count` waypoints are a route, and if not, why and where. */
static uint64_t walk_back(const char *title, uint64_t count) {
  uint64_t place = 0; /* stays 0 where no place goes with the answer */
  const uint64_t number = walkprint_walk_back(ASKED, (const uint8_t *)out, count * sizeof out[0], BYTES(place));
  printf("%s: ", title);
  if (number == WALKPRINT_ROUTE)
    printf("a route\n");
  else if (place == 0)
    printf("no route: %s\n", words(number));
  else
    printf("no route: %s at point %d\n", words(number), (int)place);
  return number;
}

int main(void) {
  build(wall_with_a_door);
  walkprint_answer answer;
  const uint64_t number = walkprint_find_walk_path(
      ASKED, BYTES(nodes), BYTES(front), slots, walkprint_index_bytes(BUDGET), BYTES(out), BYTES(answer));
  printf("%s: %d waypoints, %d nodes retained, %d closed\n", words(number),
         (int)answer.count, (int)answer.retained, (int)answer.closed);
  if (number != WALKPRINT_FOUND)
    return 1;
  print_route(out, answer.count);

  const uint64_t found = walk_back("walk-back", answer.count);
  out[answer.count - 1].y += 1;
  const uint64_t higher = walk_back("its last point a block higher", answer.count);
  return found == WALKPRINT_ROUTE && higher == WALKPRINT_TOO_HIGH ? 0 : 1;
}
