/*
 * A server's tick, from a C program: builds the world's tables and searches a way,
 * three expansions a tick; prints how far the search has come, and at its end the
 * route. In the third tick the output that it lends is too short: that is refused,
 * and nothing is lost. The world is that of scenes/start/gap.txt.
 * tools/test-examples builds and runs it.
 */
#include "common.h"

/* So many nodes are closed in a tick. A server would take more: walkprint.h says how many are sensible. */
enum { EXPANSIONS = 3 };

/* Between two ticks the search is these, and nobody else writes to them: its rooms, and its counts in `progress`. */
static uint8_t nodes[WALKPRINT_NODES_BYTES(BUDGET)];
static uint8_t front[WALKPRINT_FRONT_BYTES(BUDGET)];
static walkprint_progress progress;

/* Only the end writes to the output, so many searches could share it. */
static walkprint_waypoint out[BUDGET + 1];

/* A wall that leaves a gap at z = 2. */
static uint32_t wall_with_a_gap(int y, int z) {
  (void)y;
  return z == 2 ? AIR : STONE;
}

/* A tick's share of the search, with so many bytes of the output. */
static uint64_t advance(size_t out_length) {
  return walkprint_continue(
      progress.retained, progress.closed, progress.pushed, progress.dropped, EXPANSIONS,
      ASKED, BYTES(nodes), BYTES(front), (uint8_t *)out, out_length, BYTES(progress));
}

static void print_counts(void) {
  printf(": %d retained, %d closed, %d pushed, %d dropped\n", (int)progress.retained,
         (int)progress.closed, (int)progress.pushed, (int)progress.dropped);
}

int main(void) {
  build(wall_with_a_gap);
  if (walkprint_begin(ASKED, BYTES(nodes), BYTES(front), BYTES(out), BYTES(progress)) != WALKPRINT_STILL_SEARCHING)
    return 1;
  printf("begun");
  print_counts();

  /* A refusal writes nothing: `progress` goes on saying that the search has not ended. */
  for (int tick = 1; progress.number == WALKPRINT_STILL_SEARCHING; tick++) {
    const uint64_t number = advance(tick == 3 ? sizeof out - 1 : sizeof out);
    if (number == progress.number) {
      printf("tick %d: %s", tick, words(number));
      print_counts();
    } else {
      printf("tick %d: refused: %s\n", tick, words(number));
    }
  }
  print_route(out, progress.count);
  return progress.number == WALKPRINT_FOUND ? 0 : 1;
}
