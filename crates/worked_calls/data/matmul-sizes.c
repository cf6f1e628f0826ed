#pragma iolb param P Q R
#pragma scop
for (i = 0; i < P; i++)
  for (j = 0; j < Q; j++)
    for (k = 0; k < R; k++)
      C[i][j] = A[i][k] * B[k][j] + C[i][j];
#pragma endscop
