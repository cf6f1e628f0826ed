#pragma iolb assume N >= 3
#pragma scop
for (i = 1; i < N - 1; i++)
  for (j = 1; j < N - 1; j++)
    for (k = 1; k < N - 1; k++)
      B[i][j][k] = A[i][j][k] + A[i-1][j][k] + A[i+1][j][k] + A[i][j-1][k] + A[i][j+1][k] + A[i][j][k-1] + A[i][j][k+1];
#pragma endscop
