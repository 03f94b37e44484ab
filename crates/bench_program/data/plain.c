#define SQUARE(x) ((x) * (x))
#define LIMIT 100
#if LIMIT < 10
#define LIMIT 10
#endif
#undef LIMIT
int area = SQUARE(3) + SQUARE(LIMIT);
