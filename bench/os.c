/* What the toolchain's C code does for the library `os`, as far as `desk` reaches it, compiled for the machine at hand. */
#include <errno.h>

int rattle_errno(void) { return errno; }
