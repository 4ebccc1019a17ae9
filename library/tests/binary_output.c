/* For programs on Windows: what goes to standard output and standard error is written as it is, each byte 10 too. */
#include <fcntl.h>
#include <io.h>

__attribute__((constructor)) static void as_it_is(void) {
    _setmode(1, _O_BINARY);
    _setmode(2, _O_BINARY);
}
