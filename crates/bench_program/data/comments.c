#include <stdio.h>
#include "a b.h" // with a comment

int main(void)
{
    printf("%d\n", 0x1p-3 + .5e+3 - -1); /* a comment
    over two lines */ return L'\'';
}
