printf '\357\273\277\357\273\277run from x in t select x.c;\r\n\r\n\t// nothing\r\nrun from x in t select x.c; // the last line has no line feed'
