#pragma iolb assume N >= 2
#pragma scop
for (i = 1; i < N; i++)
  x[i] += x[i-1];
#pragma endscop
