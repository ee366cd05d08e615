#!/bin/sh
# Builds the C example and checks, and runs them; under valgrind where it is installed. Run it from the repository's top, with a C compiler
# and the archive, libport_c.a, in target/staticlib (./build puts it there) or in the folder KERZHOMA_LIB. The last line counts.
out=target/ports-c
lib=${KERZHOMA_LIB:-target/staticlib}/libport_c.a
passed=0
failed=0
mkdir -p "$out" || exit 2
[ -f "$lib" ] || { echo "there is no $lib: run ./build, or name a folder that has it in KERZHOMA_LIB"; exit 2; }
if command -v valgrind >/dev/null; then under="valgrind -q --error-exitcode=9 --leak-check=full"; else under=; echo "valgrind isn't there: run without it"; fi

# expect WHAT STATUS COMMAND..
expect() {
    what=$1 status=$2
    shift 2
    "$@" >"$out/out" 2>"$out/err"
    is=$?
    if [ "$is" -eq "$status" ]; then passed=$((passed + 1)); else failed=$((failed + 1)); echo "failed: $what: status $is, not $status"; fi
}
same() { # WHAT FILE: the output of the last command is that of the file
    if cmp -s "$out/out" "$2"; then passed=$((passed + 1)); else failed=$((failed + 1)); echo "failed: $1"; fi
}

for f in example check; do
    expect "$f.c compiles without warnings" 0 ${CC:-cc} -std=c11 -Wall -Wextra -pedantic -Werror -O2 -I ports/c "ports/c/$f.c" "$lib" -o "$out/$f"
done

expect "calls from C" 0 $under "$out/check"
tail -n 1 "$out/out"
$under "$out/check" tell <crates/test_replay/stdin >"$out/out"
same "the stored tables get the stored answers" crates/test_replay/stdout

expect "the worked example" 0 $under "$out/example" example/worked.bin
cat >"$out/worked" <<'LISTING'
(report "r" 2 0 0 0 -
(suite "lab" 2 0 0 0 -
(case "a" - 0.500 success flaky 0)
(case "b" - - failure rerun 1
(run failure -))))
LISTING
same "its listing" "$out/worked"
cat >"$out/worked.xml" <<'DOCUMENT'
<testsuites name="r" tests="2"><testsuite name="lab" tests="2"><testcase name="a" time="0.5"/>
<testcase name="b"><failure message="m"/><rerunFailure/></testcase></testsuite></testsuites>
DOCUMENT
expect "an XML document" 0 $under "$out/example" "$out/worked.xml"
same "its listing as well" "$out/worked"
cp "$out/worked.xml" "$out/document"
expect "one that isn't named so" 0 $under "$out/example" "$out/document"
same "the same listing" "$out/worked"
printf '<testsuites>' >"$out/document"
expect "one that is cut off" 1 $under "$out/example" "$out/document"
expect "the example of the repository" 0 $under "$out/example" example/report.xml
expect "areas of the sizes that kerzhoma.h calls enough" 0 $under "$out/check" rooms example/worked.bin
printf '\0\0\0\0\0\0\0\0\0\0\0\0' >"$out/empty.bin"
expect "a table that is refused" 1 $under "$out/example" "$out/empty.bin"
head -c 100 example/worked.bin >"$out/cut.bin"
expect "a file that is cut off" 2 $under "$out/example" "$out/cut.bin"
head -c 5 example/worked.bin >"$out/short.bin"
expect "a file without three numbers" 2 $under "$out/example" "$out/short.bin"
{ cat example/worked.bin; echo; } >"$out/long.bin"
expect "a file with a byte more, which is ignored" 0 $under "$out/example" "$out/long.bin"
same "its listing too" "$out/worked"
head -c 20000000 /dev/zero >"$out/large.bin"
expect "a file above the limits" 2 $under "$out/example" "$out/large.bin"
expect "no such file" 2 $under "$out/example" "$out/nothing.bin"
expect "no file named" 2 $under "$out/example"

echo "$passed passed, $failed failed"
[ "$failed" -eq 0 ]
