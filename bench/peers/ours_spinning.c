/* The proved queue under a mutex that a thread tries for often before it sleeps. */
#define SPINS 2000
#include "ours.c"
