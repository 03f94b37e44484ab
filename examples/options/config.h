typedef unsigned int count;
