// The C code under the toolchain's standard library, as far as laylist calls it. The toolchain has it for x86-64 only; this file is
// for measuring on other machines, and no program of target/bin contains it.
#include <errno.h>
#include <stddef.h>
#include <stdint.h>

int32_t rattle_errno(void) { return errno; }

void rattle_set_errno(int32_t error) { errno = error; }

// The bench runs laylist without arguments: there is only its own name.
size_t rattle_arg_count(void) { return 1; }

ptrdiff_t rattle_arg(size_t i, unsigned char *buffer, size_t bytes) {
    (void)i;
    (void)buffer;
    (void)bytes;
    return -1;
}
