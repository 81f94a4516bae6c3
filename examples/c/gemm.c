// ni=3 nj=4 nk=5
void kernel_gemm(int ni, int nj, int nk, int alpha, int beta, int C[ni][nj], int A[ni][nk], int B[nk][nj]) {
  int i, j, k;
#pragma scop
  for (i = 0; i < ni; i++) {
    for (j = 0; j < nj; j++)
      C[i][j] *= beta;
    for (k = 0; k < nk; k++) {
      for (j = 0; j < nj; j++)
        C[i][j] += alpha * A[i][k] * B[k][j];
    }
  }
#pragma endscop
}
