#pragma iolb assume N >= 2
#pragma scop
for (i = N - 1; i >= 0; i--) {
  for (j = i + 1; j < N; j++) {
    if (j - 1 >= 0)
      table[i][j] = max_score(table[i][j], table[i][j - 1]);
    if (i + 1 < N)
      table[i][j] = max_score(table[i][j], table[i + 1][j]);
    if (j - 1 >= 0 && i + 1 < N) {
      if (i < j - 1)
        table[i][j] = max_score(table[i][j], table[i + 1][j - 1] + match(seq[i], seq[j]));
      if (i >= j - 1)
        table[i][j] = max_score(table[i][j], table[i + 1][j - 1]);
    }
    for (k = i + 1; k < j; k++)
      table[i][j] = max_score(table[i][j], table[i][k] + table[k + 1][j]);
  }
}
#pragma endscop
