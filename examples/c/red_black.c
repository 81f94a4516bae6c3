// n=9 t=3
void red_black(int n, int t, long a[n]) {
  for (int s = 0; s < t; s++) {
    for (int i = 1; i < n - 1; i += 2)
      a[i] = a[i - 1] + a[i + 1];
    for (int i = 2; i < n - 1; i += 2)
      a[i] = a[i - 1] + a[i + 1];
  }
}
