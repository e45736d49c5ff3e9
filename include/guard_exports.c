/* Each function of guard.h and guard_client.h as a symbol, for programs that cannot use inline functions: bindings of
 * other languages. With the archive it makes libguard_client.so (./run library). */
#define GUARD_FUNCTION
#include "guard_client.h"
