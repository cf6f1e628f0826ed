#pragma scop
for (j = 0; j < M; j++) {
  m[j] = 0;
  for (i = 0; i < N; i++)
    m[j] += A[i][j];
}
#pragma endscop
