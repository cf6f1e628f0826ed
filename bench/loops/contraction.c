#pragma scop
for (a = 0; a < N; a++)
  for (b = 0; b < N; b++)
    for (c = 0; c < M; c++)
      for (d = 0; d < M; d++)
        R[a][b] += S[a][c][d] * V[b][c][d];
#pragma endscop
