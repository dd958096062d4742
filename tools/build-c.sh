#!/bin/sh
# Builds the archive for programs in C and the hosts of examples/c, and runs them: one calls with several buffers, one prints the
# texts of examples/hearings, which are compared.
# Its last line is 'N passed, M failed'. The status is 0 where all passed, 1 where a text differs, 2 where something cannot be built.
# CC names another compiler than gcc.
cd "$(dirname "$0")/.." || exit 2
compiler=${CC:-gcc}
archive=crates/hearings_c/out/libhearings_c.a
made=out/c

stop() {
    echo "build-c: $1" >&2
    exit 2
}

for tool in rt "$compiler"; do
    command -v "$tool" > /dev/null || stop "$tool is not found; it has to be in PATH"
done
mkdir -p "$made" || stop "cannot make the folder $made"

echo "proving and building $archive"
(cd crates/hearings_c && rt lib) > "$made/rt.log" 2>&1 || stop "the archive is not built; $made/rt.log says why"
[ -f "$archive" ] || stop "rt lib left no $archive; $made/rt.log has what it said"

for host in report buffers; do
    echo "building $made/$host with $compiler"
    "$compiler" -std=c99 -Wall -Wextra -pedantic -O2 -Iinclude -o "$made/$host" "examples/c/$host.c" "$archive" || stop "$host is not built"
done

passed=0
failed=0
# What a check said: its status, and its name.
count() {
    if [ "$1" -eq 0 ]; then
        passed=$((passed + 1))
    else
        echo "build-c: $2 failed" >&2
        failed=$((failed + 1))
    fi
}

# A hearings file, and the text that it is to have.
try() {
    "$made/report" "$1" > "$made/text" && cmp "$made/text" "$2"
    count $? "$1"
}

"$made/buffers"
count $? "$made/buffers"
for file in examples/hearings/*.hearings; do
    try "$file" "${file%.hearings}.expected"
done
# A file that is too long.
head -c 65537 /dev/zero > "$made/long"
echo 'refused 13 at 65536' > "$made/long.expected"
try "$made/long" "$made/long.expected"
# A text that the host has no room for at first: 10,000 lists at agreement 10, the bytes 4 and 10, which are a line with the byte 4.
{ cat examples/hearings/header-clean.hearings; yes "$(printf '\004')" | head -n 10000; } > "$made/lists"
{ cat examples/hearings/header-clean.expected; yes "$(printf 'list 10 1\n1 2 0')" | head -n 20000; } > "$made/lists.expected"
try "$made/lists" "$made/lists.expected"

echo "$passed passed, $failed failed"
[ "$failed" -eq 0 ]
