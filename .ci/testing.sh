# What the tests of ./tabled_script share (. .ci/testing.sh, at the top of the checkout).
# They run it, $wrapper of the checkout $checkout, in an empty folder, and add up what passed and failed.
passed=0
failed=0
room=$(mktemp -d)
trap 'chmod -R u+w "$room"; rm -rf "$room"' EXIT
chmod 755 "$room"
mkdir "$room/elsewhere"

failed_call='*reading or writing failed'
table=$'shape\t1\t2\nrow\ta\tx'
run='"$1" set cell 0 1 x <<< "row	a	b"'

tell() {
    if [ -z "$2" ]; then
        passed=$((passed + 1))
        echo "tabled_script: $1 ... ok"
    else
        failed=$((failed + 1))
        echo "tabled_script: $1 ... FAILED: $2"
    fi
}

# Runs a command in a shell, and asks for its status and for what it writes.
ends_with() {
    local name=$1 want=$2 output=$3 message=$4 shell=$5 got what=''
    bash -c "$shell" -- "$wrapper" "$checkout" < /dev/null > "$room/out" 2> "$room/err"
    got=$?
    [ "$got" = "$want" ] && [ "$(< "$room/out")" = "$output" ] && [[ $(< "$room/err") == $message ]] ||
        what="status $got for $want, and it wrote:"$'\n'$(tail -n 5 "$room/out" "$room/err" | cut -c 1-300)
    tell "$name" "$what"
}

# Lays a program into a checkout's bin/, as one of its sources or of a checksum, by a kit.
lay() {
    mkdir -p "$checkout/bin"
    cp -- "$1" "$checkout/bin/tabled_script"
    chmod 755 "$checkout/bin/tabled_script"
    printf '%s: %s\n' sources "${2-$(sum_of sources)}" kit "$(rt version)" sha256 "$(sha256sum < "$1" | cut -c 1-64)" > "$checkout/bin/README.md"
}

# The checksum of the checkout's sources, or of what is proved of them, too, as the wrapper takes it.
sum_of() {
    bash -c 'name=tabled_script_cli; top=$1; . "$top/.ci/sources"; find_sources; declare -n folders=$2; checksum "$top" "${folders[@]}"' -- "$checkout" "$1"
}

# Closes with how many passed and failed.
close() {
    echo "$passed passed, $failed failed"
    [ "$failed" -eq 0 ]
}
