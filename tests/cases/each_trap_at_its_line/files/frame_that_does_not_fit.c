int
main(void) {
  char room[131073];
  return room[0];
}
