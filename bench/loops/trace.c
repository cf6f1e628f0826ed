#pragma scop
for (i = 0; i < N; i++)
  t += A[i][i];
#pragma endscop
