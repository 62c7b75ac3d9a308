char room[315360];
char more;
int main(void) { return 0; }
