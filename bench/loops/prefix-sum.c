#pragma iolb assume N >= 2
#pragma scop
for (i = 1; i < N; i++)
  s[i] = s[i-1] + x[i];
#pragma endscop
