/* Standard input and output are bytes on Windows, too. */
#include <fcntl.h>
#include <io.h>

__attribute__((constructor)) static void set_bytes(void)
{
    _setmode(0, _O_BINARY);
    _setmode(1, _O_BINARY);
}
