#define PASTE(a, b) a ## b
int x = PASTE(1, 2);
int y = PASTE(+, /);
