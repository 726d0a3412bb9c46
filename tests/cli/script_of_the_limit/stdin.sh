printf '%s' 'run from x in t select x.c;'; head -c 1048549 /dev/zero | tr '\0' '\n'
