// n=7 m=3
// Guards of all kinds: an other value than, either of two, else of an equality.
void guards(int n, int m, int x[n], int y[n]) {
  for (int i = 0; i < n; i++) {
    if (i != m)
      y[i] = x[i];
    else
      y[i] = 1;
    if (i == 0 || i == n - 1)
      y[i] += 10;
    if (i == 2) { y[i] = 7; } else { y[i] -= x[n - 1 - i]; }
    if (!(i < m && i > 0)) y[i]++;
  }
}
