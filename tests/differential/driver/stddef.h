/* The type that include/wickpollen.h needs, so that the driver is built without a C library. */
#ifndef DRIVER_STDDEF_H
#define DRIVER_STDDEF_H
typedef __SIZE_TYPE__ size_t;
#endif
