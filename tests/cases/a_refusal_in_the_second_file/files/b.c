int g(void)
{
  return x;
}
