head -c 65536 /dev/zero | tr '\0' ' '; echo; head -c 65509 /dev/zero | tr '\0' ' '; printf '%s\n' 'run from x in t select x.c;'
