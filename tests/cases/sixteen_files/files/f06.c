int f7(void);
static int own = 1;
int f6(void) { return f7() + own; }
