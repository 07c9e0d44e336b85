// Stands in for the C library's stdint.h: as much of it as the programs here use. The compiler itself knows which type has how many bits.
#pragma once

typedef __UINT8_TYPE__ uint8_t;
typedef __UINT16_TYPE__ uint16_t;
typedef __UINT32_TYPE__ uint32_t;
typedef __UINT64_TYPE__ uint64_t;
