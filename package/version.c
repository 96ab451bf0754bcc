/* The version of the library that is linked or loaded; WALDUMRE_VERSION is that of the header. */
#include "waldumre.h"

const char *waldumre_version(void)
{
    return WALDUMRE_VERSION;
}
