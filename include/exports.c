/* Gives the shared library its own copy of the header's words, for languages that read no header. */
#define ISCC_INLINE
#include "iscc.h"
