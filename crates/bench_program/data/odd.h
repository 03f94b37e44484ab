#define JOIN(a, b) a ## b\
  /**/ c
#if __has_include(<x.h>) && 1 <\
: 2
??= \ 
@ "open
%:%: %: a+++++b

last