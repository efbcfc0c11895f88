/* What <stdbool.h> declares. */
#ifndef TCREST_STDBOOL_H
#define TCREST_STDBOOL_H
#define bool _Bool
#define true 1
#define false 0
#endif
