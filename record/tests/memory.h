/* The header of the ring functions that a test is compiled over. */
#ifdef XSK_RECORD_OVER
#include XSK_RECORD_OVER
#else
#include <xdp/xsk.h>
#endif
