for ((number = 0; number < 64; number++)); do
    printf 'c:int\n%s\n' "$number" >"t$number.csv"
done
