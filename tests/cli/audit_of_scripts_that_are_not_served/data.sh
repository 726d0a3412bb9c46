# the first line of each script asks a predicate
mkdir data
line='run Host.LeapYear(employees.First().year);'
{ echo "$line"; yes // | head -n 400000; } >long.lq
{ echo "$line"; printf '\377\n'; } >no_text.lq
