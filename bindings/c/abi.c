/* The archive's word for its ABI: see FORDLINNET_ABI in the header. Nothing is proved of it; it is a name to link by. */
#include "fordlinnet.h"

const uint32_t fordlinnet_abi_2 = FORDLINNET_ABI;
