extern int minor;
