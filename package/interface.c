/* The symbol by which an archive is told from one of another interface (DEDAKHUMI_INTERFACE of dedakhumi.h). */
#include "dedakhumi.h"

const uint8_t DEDAKHUMI_INTERFACE_SYMBOL = DEDAKHUMI_INTERFACE;
