int f11(void);
static int own = 1;
int f10(void) { return f11() + own; }
