/* SPDX-License-Identifier: MIT */
/* The scene examples/scenes/forks.scene for the model checker SPIN, which finds that the callers wait for ever: an "invalid end
   state". ./compare spin runs it.

   SPIN's states are pobj's situations, one for one: where a caller's process is says how many commands it has made, and the rest is
   each fork's data and queue. Both count 2,999. SPIN's transitions are one more than pobj's moves, 9,716 instead of 9,715, as it
   counts the first state as one. Partial order reduction leaves nothing out, since each step changes what callers share. */

#include "fork.pml"

active [FORKS] proctype philosopher() {
  take(_pid);
  take((_pid + 1) % FORKS);
  put_down(_pid);
  put_down((_pid + 1) % FORKS);
/* All commands are made, which is a valid end. The process stays: if it ended, that would be one more step. */
end:
  false
}
