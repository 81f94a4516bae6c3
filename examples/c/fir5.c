#define N 16
#define TAPS 5
// A filter of five taps, written out: ten reads in one sum.
void fir5(long x[N], long h[TAPS], long y[N]) {
  for (int n = TAPS - 1; n < N; n++)
    y[n] = h[0] * x[n] + h[1] * x[n - 1] + h[2] * x[n - 2] + h[3] * x[n - 3] + h[4] * x[n - 4];
}
