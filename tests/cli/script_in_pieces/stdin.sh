printf 'run from x in t select x.c;\n%.0s' {1..300}
