good='run from x in t select x.c;'
printf '// a carriage return is white space, also alone on its line or between tokens\n'
printf '\r\n \r \r\n// nothing\r\nrun\rfrom x\rin t select x.c;\r\n%s\r\n' "$good"
printf '// a carriage return ends no comment\n'
printf '// nothing\r%s\n%s // nothing\r%s\n' "$good" "$good" "$good"
printf '// form feed, vertical tab, no-break space, next line, line separator and the mark of byte order are no white space\n'
for blank in '\f' '\v' '\302\240' '\302\205' '\342\200\250' '\357\273\277' '\343\200\200'; do
    printf "$blank"'\n%s'"$blank"'\nrun'"$blank"'from x in t select x.c;\n//'"$blank"'\n' "$good"
done
printf '// other control characters start no token\n'
for character in '\000' '\001' '\033' '\177'; do
    printf "$character"'\n%s'"$character"'\n//'"$character"'\n' "$good"
done
printf '// all of them stand in a text as they are, but for the line feed\n'
for character in '\r' '\t' '\f' '\v' '\302\240' '\302\205' '\342\200\250' '\357\273\277' '\000' '\001' '\033' '\177'; do
    printf 'run "a'"$character"'b";\n'
done
printf 'run "a\nb";\n'
printf '// a good line is served as if the refused ones were not there\n'
printf '%s\n' "$good"
