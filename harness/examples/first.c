/* A first use from C: prints 2 and 7. */
#include <inttypes.h>
#include <stdio.h>

#include "twoway.h"

int main(void) {
    const uint8_t text[] = "xxABxxxAB", marker[] = "AB";
    printf("%" PRIu64 "\n", twoway_find(text, 9, marker, 2));
    printf("%" PRIu64 "\n", twoway_rfind(text, 9, marker, 2));
    return 0;
}
