# 1,048,577 bytes, the first of which would be served.
{ echo 'run 1;'; yes '' | head -c 1048570; } >s.lq
[ "$(stat -c %s s.lq)" -eq 1048577 ] || exit 1
