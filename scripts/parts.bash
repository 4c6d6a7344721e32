# Sourced by what runs in parts: says at the start what will be done and how long each part took here before, and at the
# end how long each took now. The times are kept in .ci/times, which is no part of the repository.
times=.ci/times
declare -A seconds_before=()
taken=()

if [[ -r $times ]]; then
    while IFS=$'\t' read -r name number; do
        seconds_before[$name]=$number
    done <"$times"
fi

# as_time SECONDS: such a span as minutes and seconds.
as_time() {
    printf '%d:%02d min' $(($1 / 60)) $(($1 % 60))
}

# announce NAME..: says what will be done.
announce() {
    local name
    echo "What will be done, and how long it took here before:"
    for name; do
        if [[ -n ${seconds_before[$name]:-} ]]; then
            echo "  $name: $(as_time "${seconds_before[$name]}")"
        else
            echo "  $name: not done here yet"
        fi
    done
}

# begin_part NAME: what follows is this part.
begin_part() {
    part=$1
    begun=$SECONDS
    echo "== $part"
}

# end_part: the part is done; its time is kept.
end_part() {
    local spent=$((SECONDS - begun)) name
    taken+=("$part: $(as_time "$spent")")
    seconds_before[$part]=$spent
    for name in "${!seconds_before[@]}"; do
        printf '%s\t%s\n' "$name" "${seconds_before[$name]}"
    done >"$times"
}

# tell_parts: says how long each part took.
tell_parts() {
    local line
    echo "How long it took:"
    for line in "${taken[@]}"; do
        echo "  $line"
    done
}
