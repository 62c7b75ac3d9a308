int main(void) {
  char room[131072];
  room[0] = 7;
  room[131071] = 8;
  return room[0] + room[131071];
}
