/* SPDX-License-Identifier: MIT */
/* The forks of examples/scenes/fork.adb for the model checker SPIN: forks.pml and footman.pml include this text.

   Each d_step is one protected action: the operation, and then each queued call whose entry is open (9.5.3). SPIN stores no state
   within it, so all its states are at rest. A call is queued first and served at once if its entry is open. */

#define FORKS 5

/* By fork: its data, and the queue of its entry. Two callers share a fork, so at most one waits. */
bit taken[FORKS];
chan queue[FORKS] = [1] of { byte };

/* By caller: whether its call is in a queue. Such a caller makes no command. */
bit waits[FORKS];

/* The caller whose call is served: 0 between two protected actions. */
byte served;

inline serve(fork) {
  do
  :: !taken[fork] && len(queue[fork]) > 0 -> queue[fork] ? served; taken[fork] = 1; waits[served] = 0
  :: else -> break
  od;
  served = 0
}

inline take(fork) {
  d_step { !waits[_pid] -> waits[_pid] = 1; queue[fork] ! _pid; serve(fork) }
}

inline put_down(fork) {
  d_step { !waits[_pid] -> taken[fork] = 0; serve(fork) }
}
