/* The types that include/wickpollen.h needs, so that the driver is built without a C library. */
#ifndef DRIVER_STDINT_H
#define DRIVER_STDINT_H
typedef __UINT8_TYPE__ uint8_t;
typedef __UINT64_TYPE__ uint64_t;
#endif
