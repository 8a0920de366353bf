/* An engine that refuses each entry call: a runtime made with it has to end the program (see run.sh). Its functions ignore the
   parameters that pobj.h gives them, except that pobj_make uses the object. */
#include <stdbool.h>
#include <stdint.h>

enum { REFUSED = 7 };

static int nothing;

bool pobj_make(void **object) {
    *object = &nothing;
    return true;
}

void pobj_free(void) {}

bool pobj_limit(void) { return true; }

uint64_t pobj_issue(void) { return REFUSED; }

uint64_t pobj_answer(void) { return REFUSED; }

uint64_t pobj_body_ended(void) { return REFUSED; }

uint64_t pobj_next(void) { return REFUSED; }

uint64_t pobj_cancel(void) { return REFUSED; }

uint64_t pobj_finalize(void) { return REFUSED; }

uint64_t pobj_ready(void) { return REFUSED; }

uint64_t pobj_served(void) { return REFUSED; }

bool pobj_wait(void) { return false; }

bool pobj_turn_away(void) { return false; }

bool pobj_served_twice(void) { return false; }

bool pobj_is_idle(void) { return false; }

uint64_t pobj_count(void) { return 0; }
