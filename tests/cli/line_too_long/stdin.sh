printf '%s\n' 'run from x in t select x.c;'; head -c 65537 /dev/zero | tr '\0' ' '
