int f4(void);
static int own = 1;
int f3(void) { return f4() + own; }
