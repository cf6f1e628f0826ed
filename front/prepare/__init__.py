"""From C as people have it to programs that `iolb` reads; `iolb-prepare` is the command, and `iolb` doesn't rest on it."""
