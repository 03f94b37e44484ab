#include_next <list.h>
extern int version;
