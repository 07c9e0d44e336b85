// Stands in for the C library's stddef.h: as much of it as the programs here use.
#pragma once

#define NULL ((void *)0)
typedef __SIZE_TYPE__ size_t;
