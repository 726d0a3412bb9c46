printf '{"items":[1,2]}\n%.0s' {1..300}
