int greet(int times);
