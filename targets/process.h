// What the parts of the programs' C code for native targets share.
#ifndef PROCESS_H
#define PROCESS_H

#include <stdint.h>

// Saves the process's arguments for `rattle_arg`; both are the process's own, and stay.
void save_arguments(int count, char **all);

#endif
