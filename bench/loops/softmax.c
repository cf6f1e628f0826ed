#pragma scop
for (i = 0; i < N; i++) {
  z[i] = 0;
  for (j = 0; j < M; j++)
    z[i] += exp(A[i][j]);
  for (j = 0; j < M; j++)
    B[i][j] = exp(A[i][j]) / z[i];
}
#pragma endscop
