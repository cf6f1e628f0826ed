#pragma scop
for (i = 0; i < M; i++)
  s[i] = 0;
for (i = 0; i < N; i++) {
  q[i] = 0.0;
  for (j = 0; j < M; j++) {
    s[j] = s[j] + r[i] * A[i][j];
    q[i] = q[i] + A[i][j] * p[j];
  }
}
#pragma endscop
