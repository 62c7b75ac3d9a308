int f13(void);
static int own = 1;
int f12(void) { return f13() + own; }
