/* SPDX-License-Identifier: MIT */
/* Producers and consumers of one bounded buffer for the model checker SPIN, which finds nothing wrong. ./compare spin runs it, for
   examples/scenes/buffer.scene and for the scenes beside this file: by -D it says how many callers there are, how many calls each of
   them makes, and for how many values the buffer has room.

   The buffer is that of examples/ada/buffer.adb, with its data as they are there: values that were taken out stay in the array. Each
   d_step is one protected action: a call, and then each queued call whose entry is open (9.5.3). A call is queued first and served at
   once if its entry is open. SPIN stores no state within it, so its states are pobj's situations, one for one. Left out is what Get
   returns, since callers do nothing with it.

   A caller is always at its loop, which is a valid end, though its last call may wait. So run pan with -q: then an end is valid only
   if all queues are empty. */

#ifndef CAPACITY
#define PRODUCERS 2
#define CONSUMERS 2
#define CALLS 3
#define CAPACITY 2
#endif

/* The buffer's data, and the queues of its entries: of Put, each caller with its value. `first` counts from 0. */
byte values[CAPACITY];
byte first;
byte length;
chan puts = [PRODUCERS] of { byte, byte };
chan gets = [CONSUMERS] of { byte };

/* By caller: whether its call is in a queue. Such a caller makes no command. */
bit waits[PRODUCERS + CONSUMERS];

/* The caller whose call is served: 0 between two protected actions. */
byte served;

inline serve() {
  do
  :: length < CAPACITY && len(puts) > 0 -> puts ? served, values[(first + length) % CAPACITY]; length++; waits[served] = 0
  :: length > 0 && len(gets) > 0 -> gets ? served; first = (first + 1) % CAPACITY; length--; waits[served] = 0
  :: else -> break
  od;
  served = 0
}

/* The first one puts 1, 2, 3 .., and each further one goes on from there. */
active [PRODUCERS] proctype producer() {
  byte made;
end:
  do
  :: d_step { made < CALLS && !waits[_pid] -> made++; waits[_pid] = 1; puts ! _pid, CALLS * _pid + made; serve() }
  od
}

active [CONSUMERS] proctype consumer() {
  byte made;
end:
  do
  :: d_step { made < CALLS && !waits[_pid] -> made++; waits[_pid] = 1; gets ! _pid; serve() }
  od
}
