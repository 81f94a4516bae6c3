#define N 8
// A sum that is returned.
long dot(const int a[N], const int b[N]) {
  long sum = 0;
  for (int i = N - 1; i >= 0; --i)
    sum += (long)a[i] * b[i];
  return sum;
}
