/* Prints the version of pobj.h, as its text and as its three numbers. */
#include "pobj.h"

#include <stdio.h>

int main(void) {
    printf("%s\n%d.%d.%d\n", POBJ_VERSION, POBJ_VERSION_MAJOR, POBJ_VERSION_MINOR, POBJ_VERSION_PATCH);
    return 0;
}
