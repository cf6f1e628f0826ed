#pragma iolb assume N >= 1 && M >= 2
#pragma scop
for (i = 0; i < N; i++)
  for (j = 1; j < M; j++)
    s[i][j] = s[i][j-1] + a[i][j];
#pragma endscop
