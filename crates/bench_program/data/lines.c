#define defined 1
#define TWICE(x) x x
TWICE(__LINE__) __FILE__
