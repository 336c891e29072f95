/* For the kit's compiler, which has no headers. */
#ifndef KIT_TIME_H
#define KIT_TIME_H
typedef long clock_t;
#define CLOCKS_PER_SEC ((clock_t)1000000)
clock_t clock(void);
#endif
