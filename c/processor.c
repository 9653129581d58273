/* What c/build.sh compiles beside the proved functions. */
#include "spasm.h"

const char *spasm_processor(void) {
    return SPASM_PROCESSOR;
}
