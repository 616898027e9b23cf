// What the programs share. Each leaves a number that depends on all that it did.
#include <stdint.h>

extern uint16_t result;
