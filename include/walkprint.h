/*
 * walkprint for C: a walking search for block worlds whose answers can be
 * believed. Every function below is proved to meet its contract, which
 * docs/contracts/c.md states; this header says the same in words. (Only
 * walkprint_index_bytes and the macros are plain C, which is tested and not
 * proved.)
 *
 * Link libwalk_c.a from the folder that `tools/library` prints (README.md,
 * "From C and Rust").
 *
 * What a caller owes. A slice is a pointer and a length in bytes. The pointer
 * is not NULL, also where the length is 0, and that many bytes behind it can be
 * read, or written where it is not const. It need not be aligned. A slice that
 * is not const shares no byte with any other slice of the same call. Nothing
 * else is owed: every call answers for every content and every length, ends,
 * keeps nothing, allocates nothing and writes only where its comment says.
 *
 * Records are little-endian and have no gaps. On a little-endian machine, which
 * x86-64 and Arm are, they are the structs below, so `(const uint8_t *)&r` with
 * `sizeof r` is a record. What stands behind a record is not read. Where a
 * window, a request, two ends or a body is shorter than its struct, the request
 * is an invalid one, answered in its place in the call's order: 1, and 111 of
 * walkprint_walk_back. (3 comes before that; for it the fields that a window
 * does not have read as 0.) Of floats, every NaN pattern is the one NaN.
 */
#ifndef WALKPRINT_H
#define WALKPRINT_H

#include <stddef.h>
#include <stdint.h>

#ifdef __cplusplus
extern "C" {
#endif

/* ---- The version ---------------------------------------------------------- */

#define WALKPRINT_VERSION_MAJOR 0
#define WALKPRINT_VERSION_MINOR 6
#define WALKPRINT_VERSION_PATCH 0
#define WALKPRINT_VERSION (WALKPRINT_VERSION_MAJOR * 1000000 + WALKPRINT_VERSION_MINOR * 1000 + WALKPRINT_VERSION_PATCH)

/* The WALKPRINT_VERSION that the library was built as: compare it with this header's. */
uint64_t walkprint_version(void);

/* ---- Numbers given back --------------------------------------------------- */

/*
 * 0 to 13 belong to the papers that walkprint is built to (README.md): 01's are
 * 0 to 9, and further ones are 02's. 0 says that the call did what was asked:
 * found, yes, read, the height, the root. An answer for which they have no number
 * has one of this interface's own, from 100 on. Each of those stands once in
 * this header, whatever the call.
 */
enum {
  WALKPRINT_FOUND = 0,           /* the list is written */
  WALKPRINT_ROUTE = 0,           /* walk-back: yes, the list is a route */
  WALKPRINT_UNREACHABLE = 1,     /* invalid request, bad endpoint, or no route exists, whatever the budget */
  WALKPRINT_BUDGET_EXCEEDED = 2, /* budget 0, or the search ended after a new point was dropped */
  WALKPRINT_BAD_WORLD = 3,       /* a size above 256, a table of a wrong length, or a shape or box off its rule */
  WALKPRINT_TOO_LARGE = 4,       /* max_range > 64, width > 8, height > 16 or node_budget > 4,096 */
  WALKPRINT_NO_ROOM = 5,         /* a room is too short, or the index's of a wrong size */
  WALKPRINT_ENDLESS_JUMP = 6,    /* 65,536 ticks don't bring the jump to rest */
  WALKPRINT_BAD_SCENE = 7,       /* the first bad record, counted from 0 */
  WALKPRINT_BAD_TABLE = 8,       /* flag and permission tables differ in length */
  WALKPRINT_BAD_NUMBER = 9,      /* square root of a refused number */
  WALKPRINT_BAD_PROGRESS = 12,   /* continue: the search has ended, rooms or counts are no search's, or the expansions not 1 to 4,096 */

  /* A search in slices: nothing is decided yet. */
  WALKPRINT_STILL_SEARCHING = 100,

  /* Why there is no edge: the first that is so, in this order. Told by the edge, and by the walk-back of a pair. */
  WALKPRINT_TOO_HIGH = 101,             /* the target is higher than a step or a jump reaches */
  WALKPRINT_TOO_DEEP = 102,             /* the target is lower than max_drop lets the body fall */
  WALKPRINT_TARGET_OUT_OF_RANGE = 103,  /* further than max_range from the request's start, in x, in y or in z */
  WALKPRINT_RAISED_OUT_OF_RANGE = 104,  /* so is the point that the body crosses from: `from`, raised by the lift */
  WALKPRINT_TARGET_NOT_STANDABLE = 105, /* no room for the body at the target, or no ground there */
  WALKPRINT_LIFT_BLOCKED = 106,         /* something is in the way up */
  WALKPRINT_CROSSING_BLOCKED = 107,     /* something is in the way across, at the raised height */
  WALKPRINT_SETTLE_BLOCKED = 108,       /* something is in the way from there to the target */
  WALKPRINT_UNSUPPORTED = 109,          /* no ground carries the body all the way */

  /* Why else a list is no route: walk-back. */
  WALKPRINT_INVALID_REQUEST = 111,
  WALKPRINT_BAD_LIST = 112,             /* empty, a partial record, or a movement above 3 in any record */
  WALKPRINT_GOAL_OUT_OF_RANGE = 113,
  WALKPRINT_START_NOT_STANDABLE = 114,
  WALKPRINT_GOAL_NOT_STANDABLE = 115,
  WALKPRINT_WRONG_START = 116,          /* the first record is not the start's: its point, Walk, lift 0, no door */
  WALKPRINT_NOT_A_STEP = 117,           /* of a pair: there is an edge, but it is no graph step nor, at the last pair, a connector */
  WALKPRINT_WRONG_LABEL = 118,          /* of a pair: the movement, the lift or the door is not its edge's */
  WALKPRINT_WRONG_END = 119,            /* the last point is not the goal */

  /* An edge, by its movement. */
  WALKPRINT_EDGE_WALK = 130,
  WALKPRINT_EDGE_STEP = 131,
  WALKPRINT_EDGE_JUMP = 132,
  WALKPRINT_EDGE_DROP = 133
};

/* No number's words are longer than so many bytes. */
enum { WALKPRINT_WORD = 32 };

/*
 * A number in words, ASCII and in lower case, with no zero behind them: "budget
 * exceeded", "crossing blocked", "step". Returns how many bytes they are, 0 for
 * a number that has none; the numbers above have words, and no others.
 * Afterwards:
 *   word    the words in its first bytes, then its old bytes. Shorter than the
 *           words: untouched, and their length is returned all the same.
 * The words of 0 to 9 are 01's names, so 0 is "found" and 1 "unreachable". As an
 * answer of the walk-back 0 is yes, and of the edge 1 is an invalid request: do
 * not ask for the words of these two.
 */
uint64_t walkprint_word(uint64_t number, uint8_t *word, size_t word_length);

/* Kinds of movement in waypoint and node records. */
enum {
  WALKPRINT_WALK = 0,
  WALKPRINT_STEP = 1,
  WALKPRINT_JUMP = 2,
  WALKPRINT_DROP = 3
};

/* The parent of the start's node record. */
#define WALKPRINT_NO_PARENT UINT32_C(4294967295)

/*
 * The door of the start, and of a waypoint with none on the way to it. (A state
 * of this number is no door; only a permission table of 4 GiB has a byte for it.)
 */
#define WALKPRINT_NO_DOOR UINT64_C(4294967295)

/* ---- Records -------------------------------------------------------------- */

/* Where the cell table lies: its least cell, and how many cells it has each way, 0 to 256. 24 bytes. */
typedef struct walkprint_window {
  int32_t x, y, z;
  uint32_t size_x, size_y, size_z;
} walkprint_window;

/* A cell: x runs fastest, then z, then y. A state without a permission byte, or a shape without a record, makes it unknown. 8 bytes. */
typedef struct walkprint_cell {
  uint32_t state, shape;
} walkprint_cell;

/* A permission is a byte a state: 1 occupied, 2 support, 4 collides; higher bits are not read. Without 4 a known cell has no boxes, and is a door (below). */
enum {
  WALKPRINT_OCCUPIED = 1,
  WALKPRINT_SUPPORT = 2,
  WALKPRINT_COLLIDES = 4
};

/* A shape: its first box and how many, at most 16. 8 bytes. */
typedef struct walkprint_shape {
  uint32_t first, count;
} walkprint_shape;

/* A box: finite numbers, min <= max, each from -16 to 16, measured from its cell's least corner. 48 bytes. */
typedef struct walkprint_box {
  double min_x, min_y, min_z, max_x, max_y, max_z;
} walkprint_box;

/* What a search is asked. 88 bytes. */
typedef struct walkprint_request {
  double start_x, start_y, start_z;
  double goal_x, goal_y, goal_z;
  double max_range, step_height, jump_height, max_drop;
  uint64_t node_budget;
} walkprint_request;

/* What walks. 24 bytes. */
typedef struct walkprint_body {
  double width, height, step_height;
} walkprint_body;

/*
 * A point of a list: its feet, how far the move to it lifts, the kind of
 * movement, and the door on the way to it. 48 bytes.
 *
 * `door` tells a guide that opens doors what to open before it goes on to this
 * point. It is the number of a block state, as the cell table has it: that of the
 * first cell on the way whose state's permission byte lacks WALKPRINT_COLLIDES,
 * so that the body goes through whatever stands there. WALKPRINT_NO_DOOR says
 * that there is no such cell.
 *
 * - First are the cells that the body meets on its way up (the lift), then those
 *   on its way across, then those on its way to the target; on each of the three
 *   the lowest layer (y), in it the least x, and there the least z. A cell is met
 *   if its cube and the box that the body sweeps overlap: to touch is not enough.
 *   It must be known; the other two bits of its byte are not read.
 * - The cells that the body is in before it moves are met too, also where it does
 *   not rise. So the move that leaves a doorway names its door, and not one ahead.
 * - 0 is a state like any other. Compare with WALKPRINT_NO_DOOR, never with 0.
 * - It is a state and not a place, and of several doors on one way only the first.
 *   Look for that state along the way to see which block it is.
 * - Air counts where its byte lacks WALKPRINT_COLLIDES. So give air that bit, and
 *   a shape without boxes; walkprint_find_path gives it to every state that is no
 *   door.
 * - The start, which is a list's first record and node 0, has none.
 */
typedef struct walkprint_waypoint {
  double x, y, z, lift;
  uint64_t movement, door;
} walkprint_waypoint;

/*
 * A retained point of a search, in discovery order: its waypoint, with movement,
 * lift and door of the edge from its parent; its cost, its parent's number, and
 * whether it was closed (1). 64 bytes.
 */
typedef struct walkprint_node {
  walkprint_waypoint waypoint;
  double cost;
  uint32_t parent, closed;
} walkprint_node;

/* A frontier record, for the node of the same number; all zero when it does not wait. 24 bytes. */
typedef struct walkprint_front {
  double estimate;
  uint64_t order, waiting;
} walkprint_front;

/* The two ends of a mob's search, the first 48 bytes of a request. */
typedef struct walkprint_ends {
  double start_x, start_y, start_z;
  double goal_x, goal_y, goal_z;
} walkprint_ends;

/* What a search answers: its outcome's number, the list's count, and the retained and closed nodes. 32 bytes. */
typedef struct walkprint_answer {
  uint64_t outcome, count, retained, closed;
} walkprint_answer;

/*
 * What begin and continue answer: the number that they return; the list's count;
 * how many nodes are retained and how many of them closed; how often a node was
 * pushed, that is, made to wait; and how often a new point was dropped because the
 * budget was used up, the same point each time that it is met. 48 bytes.
 */
typedef struct walkprint_progress {
  uint64_t number, count, retained, closed, pushed, dropped;
} walkprint_progress;

/* What a scene says, and how many bytes of each table it made. 168 bytes. */
typedef struct walkprint_scene {
  walkprint_request request;
  walkprint_body body;
  walkprint_window window;
  uint64_t cells, permissions, shapes, boxes;
} walkprint_scene;

/* The largest sizes that a scene's tables can have, in bytes, and the bytes of a scene record. */
enum {
  WALKPRINT_SCENE_CELLS = 32768,
  WALKPRINT_SCENE_PERMISSIONS = 256,
  WALKPRINT_SCENE_SHAPES = 2048,
  WALKPRINT_SCENE_BOXES = 12288,
  WALKPRINT_SCENE_RECORD = 64
};

/* ---- The search ----------------------------------------------------------- */

/*
 * The bytes of the shortest rooms for a budget: a record a node in `nodes` and
 * in `front`, and one more than that in `out`. Longer ones are right too. Each
 * is a size_t, and a constant where node_budget is one, so that an array can
 * have this size. They are right for every budget that a search takes, that is,
 * up to 4,096; a product with a far larger one may wrap.
 */
#define WALKPRINT_NODES_BYTES(node_budget) ((size_t)(node_budget) * sizeof(walkprint_node))
#define WALKPRINT_FRONT_BYTES(node_budget) ((size_t)(node_budget) * sizeof(walkprint_front))
#define WALKPRINT_OUT_BYTES(node_budget) (((size_t)(node_budget) + 1) * sizeof(walkprint_waypoint))

/* An index room of so many bytes is of a right size for every budget up to 4,096, the most that a search takes. Larger powers of two are right too. */
enum { WALKPRINT_MOST_INDEX_BYTES = 32768 };

/*
 * The bytes of the smallest index room for a budget. It has slots of 4 bytes,
 * their number is a power of two, and there are at least 2 * node_budget; so one
 * that is twice as long is right too, and so on, but none between them. For a
 * budget above 4,096, which no search takes, the bytes for 4,096.
 */
static inline size_t walkprint_index_bytes(uint64_t node_budget) {
  size_t bytes = 4;
  while (bytes / 8 < node_budget && bytes < WALKPRINT_MOST_INDEX_BYTES)
    bytes *= 2;
  return bytes;
}

/*
 * A way from the request's start to its goal. Judged in this order: 3;
 * an invalid request (1); 4; 5, where `nodes` has fewer than node_budget
 * records of 64 bytes, `front` fewer than node_budget of 24, `out` fewer than
 * node_budget + 1 of 48, or `index` is of a wrong size: its slots of 4 bytes are
 * not whole, are no power of two, or are fewer than 2 * node_budget; goal in
 * range, start standable, goal standable (else 1); budget 0 (2); then the
 * search, which answers 0, 1 or 2. The old bytes of the rooms decide nothing.
 *
 * Returns the outcome's number. Afterwards:
 *   answer  outcome, count, retained and closed in its first 32 bytes; past
 *           them its old bytes. Count is 0 unless 0 Found; retained and closed
 *           are 0 where no search began. Shorter than 32 bytes: untouched.
 *   out     on 0 the list, `count` waypoint records, then its old bytes; on 1
 *           to 5 untouched.
 *   nodes   untouched unless the search began; after it the retained nodes in
 *           discovery order, then its old bytes.
 *   front   untouched unless the search began; after it all zero.
 *   index   untouched unless the search began; after it all zero.
 */
uint64_t walkprint_find_walk_path(
    const uint8_t *window, size_t window_length,
    const uint8_t *cells, size_t cells_length,
    const uint8_t *permissions, size_t permissions_length,
    const uint8_t *shapes, size_t shapes_length,
    const uint8_t *boxes, size_t boxes_length,
    const uint8_t *request, size_t request_length,
    const uint8_t *body, size_t body_length,
    uint8_t *nodes, size_t nodes_length,
    uint8_t *front, size_t front_length,
    uint8_t *index, size_t index_length,
    uint8_t *out, size_t out_length,
    uint8_t *answer, size_t answer_length);

/*
 * What is known of a block state, a bit a fact: the flag table has a byte a
 * state, whose two highest bits are not read. (WALKPRINT_DOOR is such a bit; a
 * waypoint's door is a state's number.)
 */
enum {
  WALKPRINT_WATER = 1,
  WALKPRINT_DAMAGING = 2,
  WALKPRINT_GRASS = 4,
  WALKPRINT_DOOR = 8,
  WALKPRINT_IRON_DOOR = 16,
  WALKPRINT_OPEN = 32
};

/* A mob's policy, a bit a wish, and whether its body is in water; higher bits are not read. */
enum {
  WALKPRINT_AVOID_WATER = 1,
  WALKPRINT_AVOID_DAMAGE_BLOCKS = 2,
  WALKPRINT_CAN_JUMP = 4,
  WALKPRINT_CAN_PASS_DOORS = 8,
  WALKPRINT_CAN_OPEN_DOORS = 16,
  WALKPRINT_CAN_OPEN_IRON_DOORS = 32,
  WALKPRINT_DOOR_BREAKER = 64,
  WALKPRINT_IN_WATER = 128
};

/* The budget that a mob's search asks for, and the bytes of its shortest rooms. */
enum {
  WALKPRINT_PATH_NODE_BUDGET = 2048,
  WALKPRINT_PATH_NODES_BYTES = 131072,
  WALKPRINT_PATH_FRONT_BYTES = 49152,
  WALKPRINT_PATH_INDEX_BYTES = 16384,
  WALKPRINT_PATH_OUT_BYTES = 98352
};

/*
 * A mob's search. It judges 8, fills the permission table by the flags of the
 * states and the policy, then searches as walkprint_find_walk_path does, with
 * range 16, budget 2,048, drop 3, the body's step, and jump_height, or 0 if the
 * mob can't jump. The doors of its waypoints are those that the mob opens or
 * breaks by its policy. (One with WALKPRINT_CAN_OPEN_DOORS and without
 * WALKPRINT_DOOR_BREAKER goes through every door so, an open one too: its state
 * says whether there is something to do.) Returns 8 or the outcome's number.
 * Afterwards:
 *   permissions
 *           on 8 untouched; else filled, whatever the search answers.
 *   answer, out, nodes, front, index
 *           on 8 untouched; else as after walkprint_find_walk_path.
 */
uint64_t walkprint_find_path(
    uint64_t policy, double jump_height,
    const uint8_t *flags, size_t flags_length,
    const uint8_t *window, size_t window_length,
    const uint8_t *cells, size_t cells_length,
    uint8_t *permissions, size_t permissions_length,
    const uint8_t *shapes, size_t shapes_length,
    const uint8_t *boxes, size_t boxes_length,
    const uint8_t *ends, size_t ends_length,
    const uint8_t *body, size_t body_length,
    uint8_t *nodes, size_t nodes_length,
    uint8_t *front, size_t front_length,
    uint8_t *index, size_t index_length,
    uint8_t *out, size_t out_length,
    uint8_t *answer, size_t answer_length);

/* ---- The search, a little each tick --------------------------------------- */

/*
 * A long search holds up the server that waits for it. These two calls make it a
 * little at a time: walkprint_begin once, then walkprint_continue tick by tick,
 * each time with a number of expansions, until it answers something else than 100.
 * An expansion is one node closed, with its connector and its columns.
 *
 * Between two calls a search is its rooms `nodes` and `front` and its four counts:
 * retained, closed, pushed and dropped. The library keeps nothing. So the caller
 * leaves the rooms, the tables, the request and the body as they are, and hands on
 * the counts that the last call gave back. What is promised then:
 *
 * - However the expansions are divided, the end is that of
 *   walkprint_find_walk_path with these tables, this request and this body: the
 *   same outcome, list, counts and node records, byte for byte.
 * - It comes after at most node_budget expansions in all, and no call before it
 *   answers 12, if its expansions are 1 to 4,096.
 *
 * `out` is no part of the search: no call reads it, and only the one that finds
 * the list writes it. It may be another slice each time, or one for many searches.
 * There is no index room. A point is looked up as by a scan of the node room, the
 * first record at it; continue makes an index of its own for that, on the stack, of
 * which it needs some 64 KB.
 *
 * What a call costs. Before its first expansion it judges the tables, as every
 * call does, and then 12, for which it passes over all of the lent `front` and over
 * the retained nodes; these it also enters in its index. Late in a search of
 * thousands of nodes that takes as long as some ten expansions, so a slice of one
 * expansion costs far more in judging than in searching. 64 to 256
 * expansions a call are sensible. In the worlds that docs/SPEED.md times ("The
 * search in slices"), slices of 64 make a search at most a tenth longer, slices of
 * 16 up to 1.3 times as long, and slices of 1 two to six times.
 *
 * Where another hand changed the rooms or the counts, continue answers 12, or it
 * makes its expansions on what it finds there: the lowest estimate first, then the
 * lowest push order, then the lower node; of two nodes at one point the first
 * answers for it; an open node that does not wait does so again, with a new
 * estimate and order, when a cheaper way to it is met; and a node at the goal ends
 * the search. Each call goes by the tables, the request and the body that it is
 * lent. It ends, and writes only what is said below, whatever they are; but a list
 * that is found so need be no route. walkprint_walk_back tells.
 */

/*
 * Begins a search. Judged in this order: 3; an invalid request (1); 4; 5, where
 * `nodes` has fewer than node_budget records of 64 bytes, `front` fewer than
 * node_budget of 24, or `out` fewer than node_budget + 1 of 48; goal in range,
 * start standable, goal standable (else 1); budget 0 (2). On these nothing at all
 * is written. Else the search is begun, with the start retained, and the answer is
 * 100, also where the start is the goal: what the search comes to is left to
 * continue. The old bytes of the rooms decide nothing.
 *
 * Returns the number. Afterwards, on 100:
 *   nodes   record 0 is the start: Walk, lift 0, no door, cost 0, no parent, not
 *           closed. Past it the old bytes.
 *   front   record 0 is that of the start, which waits: estimate 0, order 0,
 *           waiting 1. Past it all zero, to the end of the slice.
 *   progress
 *           100, 0, 1, 0, 1, 0 (number, count, retained, closed, pushed, dropped)
 *           in its first 48 bytes; past them its old bytes. Shorter than 48 bytes:
 *           untouched.
 * Of `out` only the length is looked at. No byte of it is read or written.
 */
uint64_t walkprint_begin(
    const uint8_t *window, size_t window_length,
    const uint8_t *cells, size_t cells_length,
    const uint8_t *permissions, size_t permissions_length,
    const uint8_t *shapes, size_t shapes_length,
    const uint8_t *boxes, size_t boxes_length,
    const uint8_t *request, size_t request_length,
    const uint8_t *body, size_t body_length,
    uint8_t *nodes, size_t nodes_length,
    uint8_t *front, size_t front_length,
    const uint8_t *out, size_t out_length,
    uint8_t *progress, size_t progress_length);

/*
 * Goes on with a search by at most `expansions` expansions. Judged in this order:
 * 3; an invalid request (1); 4; 5, as begin has it; 12. The ends are not judged
 * again. 12 is judged once a call, before its first expansion; it is the answer
 * unless all of this is so:
 *
 * - `expansions` is from 1 to 4,096.
 * - retained is from 1 to node_budget (so with budget 0 it is 12), closed at most
 *   retained, pushed and dropped below 2^32. These are the numbers that are handed
 *   over; closed is not held against the records.
 * - Each retained node, one of the first `retained` records of `nodes`, has a point
 *   in range, a finite cost, a movement of at most 3, and 0 or 1 for closed; and
 *   the frontier record of its number has 0 or 1 for waiting. Lift and door may be
 *   any.
 * - Node 0 has no parent (4294967295). Every other retained node has one that is
 *   retained and closed, and from parent to parent it leads back to node 0.
 * - Some node waits, that is, has 1 for waiting. After the end of a search none
 *   does.
 * - Every whole record of the lent `front`, also past the budget, that has 1 for
 *   waiting is a retained node's that is not closed, with a finite estimate.
 *
 * On 3, 4, 5, 12 and the 1 of an invalid request nothing at all is written: rooms,
 * output and progress keep every byte. So no caller loses its search to a short
 * room or a wrong number; it calls again with the right ones and the same counts.
 * Else the answer comes from the search: 0, 1 or 2 in the very call whose expansion
 * finds the goal or leaves nothing waiting, and otherwise 100.
 *
 * So 1 says two things, and `progress` tells them apart. It has number 100 from the
 * call before; where the search has ended it now has 1, and where the request is
 * invalid it still has 100. (A next call answers 12 or again 1.)
 *
 * Returns the number. Afterwards, where it is no refusal:
 *   progress
 *           the number, the list's count (0 unless 0 Found) and the four counts in
 *           its first 48 bytes; past them its old bytes. Shorter than 48 bytes:
 *           untouched, and the search cannot go on, for its counts are lost.
 *   nodes   the retained nodes in discovery order, then its old bytes.
 *   front   on 100 the frontier records of the retained nodes, then its old bytes;
 *           on 0, 1 and 2 all zero, to the end of the slice.
 *   out     on 0 the list, `count` waypoint records, then its old bytes; else
 *           untouched.
 */
uint64_t walkprint_continue(
    uint64_t retained, uint64_t closed, uint64_t pushed, uint64_t dropped,
    uint64_t expansions,
    const uint8_t *window, size_t window_length,
    const uint8_t *cells, size_t cells_length,
    const uint8_t *permissions, size_t permissions_length,
    const uint8_t *shapes, size_t shapes_length,
    const uint8_t *boxes, size_t boxes_length,
    const uint8_t *request, size_t request_length,
    const uint8_t *body, size_t body_length,
    uint8_t *nodes, size_t nodes_length,
    uint8_t *front, size_t front_length,
    uint8_t *out, size_t out_length,
    uint8_t *progress, size_t progress_length);

/* ---- Routes, edges and lengths -------------------------------------------- */

/*
 * Whether a list of waypoint records is a route of the request, and if not, why:
 * 0 exactly for a route, else the first of these. 3; 111 for an invalid request;
 * 4, the budget not read; 112 for a bad list; 113, 114, 115 for the ends; 116
 * for a wrong start. Then pair by pair, a record and the next one: 101 to 109
 * where there is no edge from the one to the other; 117 where there is one, but
 * it is no graph step nor, at the last pair, a connector; 118 where the later
 * record has another movement, lift or door than its edge (a door that was opened
 * after the list was found has another state). And 119 for a wrong end.
 *
 * Returns the number. Afterwards:
 *   place   with a pair's reason (101 to 109, 117, 118) the place of the pair's
 *           later record in the list, counted from 0, u64, in its first 8 bytes,
 *           then its old bytes. Every pair before that one is a graph step.
 *           Shorter than 8 bytes, or with any other answer: untouched. The first
 *           record is no pair's later one, so no place is 0.
 */
uint64_t walkprint_walk_back(
    const uint8_t *window, size_t window_length,
    const uint8_t *cells, size_t cells_length,
    const uint8_t *permissions, size_t permissions_length,
    const uint8_t *shapes, size_t shapes_length,
    const uint8_t *boxes, size_t boxes_length,
    const uint8_t *request, size_t request_length,
    const uint8_t *body, size_t body_length,
    const uint8_t *list, size_t list_length,
    uint8_t *place, size_t place_length);

/*
 * The edge from one point to another: 3; an invalid request (1); 4, the budget
 * not read; then 130 to 133 by its movement, or where there is none the first
 * reason, 101 to 109. Its lift and its door are not told. Writes nothing.
 *
 * The points are not judged: NaN and infinities too are answered. An edge's
 * target, and `from` raised by the edge's lift, are in range of the request's
 * start, else it is 103 or 104 before a cell is looked at; a NaN is out of range,
 * where the height does not speak first (101, 102). So the way is at most
 * 2 * max_range + 2.0e-7 long in x and in z. Only a Step or a Jump can begin further
 * down, and it ends at the first cell outside the window, which is solid. An
 * edge of the graph is at most 1.5 long in x and in z, and takes microseconds;
 * across a whole range, over shapes of many boxes, it can be a minute and more.
 */
uint64_t walkprint_edge(
    const uint8_t *window, size_t window_length,
    const uint8_t *cells, size_t cells_length,
    const uint8_t *permissions, size_t permissions_length,
    const uint8_t *shapes, size_t shapes_length,
    const uint8_t *boxes, size_t boxes_length,
    const uint8_t *request, size_t request_length,
    const uint8_t *body, size_t body_length,
    double from_x, double from_y, double from_z,
    double to_x, double to_y, double to_z);

/*
 * The length of a list of waypoint records, as the body goes: from one point to
 * the next it rises by the lift, crosses at that height, and then goes up or down
 * to the point. From a record `from` to the next one, `to`, that is
 *
 *     (to.lift + root(dx * dx + dz * dz)) + size(to.y - (from.y + to.lift))
 *
 * where dx is to.x - from.x, dz is to.z - from.z, the root is
 * walkprint_square_root, and the size is the number without its sign. Each of
 * these is worked out first and then added to the sum, in the order of the list
 * and from 0.0 on; each operation is rounded once. For no record, and for one
 * whatever stands in it, the length is 0.0. A partial record at the end is not
 * read; nor are movements, doors and the first record's lift. Writes nothing.
 *
 * Of a found list, walkprint_length(out, count * 48) is the length that the
 * program walkprint prints. It is not the cost by which the search compares ways:
 * that adds up straight lines from point to point. So a way that is found need not
 * be the one with the least length. Where all points lie at one height and every
 * lift is 0, cost and length are the same number.
 *
 * The list is not judged, and need be no route: the numbers that are read are
 * taken as they are. So with lifts below 0 the length can be below 0. Of two
 * records or more, a NaN makes it a NaN; an infinity, or numbers too large to be
 * squared or added, make it infinite or a NaN.
 */
double walkprint_length(const uint8_t *list, size_t list_length);

/* ---- Scenes --------------------------------------------------------------- */

/*
 * Reads a whole scene: records of 64 bytes, the last one perhaps partial, which
 * is bad. Returns 5 where a table's room is below its largest size
 * (WALKPRINT_SCENE_CELLS and so on), 7 at the first bad or missing record, else
 * 0. Afterwards:
 *   cells, permissions, shapes, boxes
 *           on 0 what the scene made, then their old bytes; on 7 what the
 *           records before the bad one made, else their old bytes; on 5
 *           untouched.
 *   made    on 0 a walkprint_scene in its first 168 bytes; shorter: untouched.
 *           On 7 the bad record's number, u64, in its first 8 bytes; shorter:
 *           untouched. Past these its old bytes. On 5 untouched.
 * To search the scene, hand on of each table the bytes that `made` says are in
 * use.
 */
uint64_t walkprint_read_scene(
    const uint8_t *bytes, size_t bytes_length,
    uint8_t *cells, size_t cells_length,
    uint8_t *permissions, size_t permissions_length,
    uint8_t *shapes, size_t shapes_length,
    uint8_t *boxes, size_t boxes_length,
    uint8_t *made, size_t made_length);

/* ---- Numbers -------------------------------------------------------------- */

/*
 * How many blocks a jump gains that starts with the velocity `power`. Returns
 * 0, and the height, a double, is in the first 8 bytes of `height`, then its
 * old bytes (shorter: untouched); or 6, and `height` is untouched.
 */
uint64_t walkprint_jump_apex(float power, double gravity, uint8_t *height, size_t height_length);

/*
 * The nearest double to the exact square root of x; both zeros keep their
 * sign. Returns 0, and the root, a double, is in the first 8 bytes of `root`,
 * then its old bytes (shorter: untouched); or 9 where x is negative, infinite
 * or NaN, and `root` is untouched.
 */
uint64_t walkprint_root(double x, uint8_t *root, size_t root_length);

/* The same root as a number: infinity of infinity, NaN where walkprint_root refuses any other. */
double walkprint_square_root(double x);

#ifdef __cplusplus
}
#define WALKPRINT_SIZE(bytes, number) static_assert((bytes) == (number), #bytes)
#else
#define WALKPRINT_SIZE(bytes, number) _Static_assert((bytes) == (number), #bytes)
#endif

/* The structs have no gaps, and a mob's rooms are those of its budget. */
WALKPRINT_SIZE(sizeof(walkprint_window), 24);
WALKPRINT_SIZE(sizeof(walkprint_cell), 8);
WALKPRINT_SIZE(sizeof(walkprint_shape), 8);
WALKPRINT_SIZE(sizeof(walkprint_box), 48);
WALKPRINT_SIZE(sizeof(walkprint_request), 88);
WALKPRINT_SIZE(sizeof(walkprint_body), 24);
WALKPRINT_SIZE(sizeof(walkprint_waypoint), 48);
WALKPRINT_SIZE(sizeof(walkprint_node), 64);
WALKPRINT_SIZE(sizeof(walkprint_front), 24);
WALKPRINT_SIZE(sizeof(walkprint_ends), 48);
WALKPRINT_SIZE(sizeof(walkprint_answer), 32);
WALKPRINT_SIZE(sizeof(walkprint_progress), 48);
WALKPRINT_SIZE(sizeof(walkprint_scene), 168);
WALKPRINT_SIZE(WALKPRINT_NODES_BYTES(WALKPRINT_PATH_NODE_BUDGET), WALKPRINT_PATH_NODES_BYTES);
WALKPRINT_SIZE(WALKPRINT_FRONT_BYTES(WALKPRINT_PATH_NODE_BUDGET), WALKPRINT_PATH_FRONT_BYTES);
WALKPRINT_SIZE(WALKPRINT_OUT_BYTES(WALKPRINT_PATH_NODE_BUDGET), WALKPRINT_PATH_OUT_BYTES);
#undef WALKPRINT_SIZE

#endif
