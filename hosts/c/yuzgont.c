/* The functions of yuzgont.h as real ones, for the shared library: what calls a library by names at run time, as Python and Go do, cannot call
 * an inline function. The header is read here once with neither `static` nor `inline`, so that there is one text of each function. The headers of
 * C that it includes come before that.
 */
#include <stdbool.h>
#include <stddef.h>
#include <stdint.h>
#include <stdlib.h>
#include <string.h>

#define static
#define inline
#include "yuzgont.h"
