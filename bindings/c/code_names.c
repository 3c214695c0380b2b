/* The negative response codes that have a name, with the names' numbers, a line each. */
#include <stdio.h>

#include "bintrochis.h"

int main(void) {
    for (unsigned code = 0; code < 256; code++) {
        const uint8_t number = bintrochis_name_number((uint8_t)code);
        if (number != BINTROCHIS_NAME_NONE) {
            printf("%02x %2u %s\n", code, (unsigned)number, bintrochis_code_name((uint8_t)code));
        }
    }
    return 0;
}
