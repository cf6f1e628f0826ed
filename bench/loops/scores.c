#pragma scop
for (i = 0; i < N; i++)
  for (j = 0; j < N; j++)
    for (d = 0; d < D; d++)
      P[i][j] += Q[i][d] * K[j][d];
#pragma endscop
