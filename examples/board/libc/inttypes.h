#ifndef INTTYPES_H
#define INTTYPES_H

#include <stdint.h>

#define PRIu32 __UINT32_FMTu__

#endif
