int main(void) { 1.5; }
