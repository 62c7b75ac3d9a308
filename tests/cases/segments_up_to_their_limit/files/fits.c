char room[315360];
int main(void) {
  room[315359] = 5;
  return room[0] + room[315359];
}
