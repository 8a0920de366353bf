/* SPDX-License-Identifier: MIT */
/* The scene examples/scenes/footman.scene for the model checker SPIN, which finds nothing wrong. ./compare spin runs it.

   Both count 16,637 situations and 62,670 moves, in the sense of forks.pml. */

#include "fork.pml"

#define SEATS 4

/* The footman: his data, and the queue of his entry. */
byte seated;
chan standing = [FORKS - SEATS] of { byte };

inline serve_standing() {
  do
  :: seated < SEATS && len(standing) > 0 -> standing ? served; seated++; waits[served] = 0
  :: else -> break
  od;
  served = 0
}

inline sit_down() {
  d_step { !waits[_pid] -> waits[_pid] = 1; standing ! _pid; serve_standing() }
}

inline stand_up() {
  d_step { !waits[_pid] -> seated--; serve_standing() }
}

active [FORKS] proctype philosopher() {
  sit_down();
  take(_pid);
  take((_pid + 1) % FORKS);
  put_down(_pid);
  put_down((_pid + 1) % FORKS);
  stand_up();
end:
  false
}
