printf 'run from x in t select x.c;\n\377\n'
