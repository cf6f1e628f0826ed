#pragma scop
for (j = 0; j < N; j++)
  y[j] = A[0][j] + A[1][j] + A[2][j];
#pragma endscop
