#!/bin/sh
# Tries the command ./card:
#
#     sh examples/try-card.sh           # some seconds
#     sh examples/try-card.sh --real    # also with the kit's own rt, which may have to prove and build first: some minutes
#
# A line a case, `ok`, `FAILED` or `skipped`, and last a line `N passed, M failed`; the exit status is 1 where a case failed.
#
# It works in a copy of the repository, in a temporary folder, where a stand-in for rt is first on the path: it proves nothing, says what rt says, and
# leaves a small script as the program. So the cases are about the command and not about proofs:
#   what is asked    the list of verbs; an unknown verb; too many and too few files; a file that is missing, a folder, or not to be read; no rt
#   building         the first use and how it counts; no build where only a time, a document or another crate has changed; a build where a source, a
#                    definition, a proof, crates.txt or the kit has; one that fails, at first and after a good one; one that is broken off; a source
#                    that is edited while it builds; two uses at once
#   running          each exit status; both streams as the program wrote them; standard input from a file, a pipe, /dev/null, a folder; names with a
#                    space or with a hyphen in front; from another folder; through links; several files, and one beside standard input; bytes that
#                    look like a refusal
# Where ./card has built the real programs, or with --real, it also runs them on the examples and compares what they print with what stands beside these.
set -u

here=$(dirname "$(dirname "$(readlink -f "$0")")")
real=''
case ${1-} in
'') ;;
--real) real=1 ;;
*) echo 'usage: sh examples/try-card.sh [--real]' >&2; exit 2 ;;
esac

TRY=$(mktemp -d) || exit 1
trap 'rm -rf "$TRY"' EXIT
trap 'exit 130' INT
trap 'exit 143' TERM
export TRY
own_path=$PATH
repository="$TRY/the repository"
mkdir -p "$repository/docs" "$TRY/kit/bin" "$TRY/elsewhere" || exit 1
cp -R "$here/crates.txt" "$here/card" "$here/examples" "$repository" || exit 1
cd "$repository" || exit 1
# the crates without what rt keeps in them, which is large
for part in "$here"/crates/*/*; do
    to=${part#"$here/"}
    [ "${to##*/}" != out ] || continue
    mkdir -p "${to%/*}" && cp -R "$part" "$to" || exit 1
done

# ---- the stand-ins

# What rt proves for a program, in its order: the libraries that a crate names, one after another, each behind those that it names itself, and then the crate.
walk() {
    case $walked in *" $1 "*) return ;; esac
    walked="$walked$1 "
    needs=$(sed -n "s/^$1://p" crates.txt)
    for dep in $needs; do
        if grep -q "^$dep:" crates.txt; then walk "$dep"; fi
    done
    echo "$1"
}
crates_of() {
    walked=' '
    walk "$1"
}
for program in trace traces assemble; do crates_of "$program" >"$TRY/crates.$program"; done
# a library among them, far from the program, whose sources the cases change
TRY_LIBRARY="$repository/crates/$(head -n 1 "$TRY/crates.trace")"
export TRY_LIBRARY
total=$(grep -c . "$TRY/crates.trace")
total_of_traces=$(grep -c . "$TRY/crates.traces")

echo 'stand-in 1' >"$TRY/version"
: >"$TRY/calls"
: >"$TRY/runs"

# The files fails, slow and meanwhile in the temporary folder make it fail, take its time, and edit a source while it builds. Where it fails, the program is there none the
# less, as that of an earlier build is where rt fails.
cat >"$TRY/kit/bin/rt" <<'END'
#!/bin/sh
# whoever calls it must not leave it the job to read
cat >/dev/null
if [ "$1" = version ]; then
    cat "$TRY/version"
    exit
fi
at=$(pwd -P)
name=${at##*/}
echo "$* in $at" >>"$TRY/calls"
build=$(grep -c . "$TRY/calls")
mkdir -p out
sed "s/BUILD/$build/" "$TRY/program" >"out/$name"
chmod +x "out/$name"
[ ! -f "$TRY/slow" ] || sleep 3
{
    # of a library that has not changed there is no line
    while read -r crate; do
        if [ "$crate" != "$name" ]; then
            [ ! -d "../$crate/out/rlib" ] || continue
            mkdir -p "../$crate/out/rlib"
        fi
        echo "rt: chose --jobs 2 for $crate"
        if [ -f "$TRY/fails" ] && [ "$crate" = "$name" ]; then
            echo 'logic=not-proved'
            echo 'rattle build: nothing was built, since only a proved crate is built'
            exit 1
        fi
        echo "fn $crate::some: proved"
        echo 'logic=proved functions=1'
    done <"$TRY/crates.$name"
    if [ -f "$TRY/meanwhile" ]; then
        rm "$TRY/meanwhile"
        echo '// edited meanwhile' >>"$TRY_LIBRARY/src/lib.rt"
    fi
    echo "linked target=x86_64-unknown-linux-gnu files=out/$name.o"
    echo "rt: running out/$name; to give it other input, run that file yourself"
} >&2
TRY_RUNS=runs-by-rt exec "out/$name" </dev/null
END

# Says which build it is, and then the names that it is given or its standard input; a case may have it say both, or more, or die.
cat >"$TRY/program" <<'END'
#!/bin/sh
echo run >>"$TRY/${TRY_RUNS-runs}"
echo 'build BUILD'
[ $# -eq 0 ] || printf 'name %s\n' "$@"
[ $# -gt 0 ] && [ -z "${TRY_READS-}" ] || cat 2>/dev/null || echo UNREADABLE >&2
[ -z "${TRY_OUT-}" ] || printf '%s\n' "$TRY_OUT"
[ -z "${TRY_ERR-}" ] || printf '%s\n' "$TRY_ERR" >&2
[ -z "${TRY_DIES-}" ] || kill -s KILL $$
END
chmod +x "$TRY/kit/bin/rt" "$TRY/program"
PATH="$TRY/kit/bin:$PATH"
unset TRY_OUT TRY_ERR TRY_DIES TRY_READS TRY_RUNS

# ---- how a case is told

lines() { grep -c . "$TRY/$1"; }

passed=0 failed=0 name='' wrong=''
begin() {
    name=$1 wrong=''
    built=$(lines calls)
    ran=$(lines runs)
}
end() {
    if [ -z "$wrong" ]; then
        echo "ok $name"
        passed=$((passed + 1))
    else
        echo "FAILED $name:$wrong"
        failed=$((failed + 1))
    fi
}
skip() { echo "skipped $1"; }
not() { wrong="$wrong $*;"; }

# Runs a command, and keeps its status and what it wrote.
run() {
    status=0
    "$@" >"$TRY/out" 2>"$TRY/err" || status=$?
}
gives() { [ "$status" -eq "$1" ] || not "status $status and not $1"; }
out_is() { printf '%b' "$1" | cmp -s - "$TRY/out" || not "standard output is not '$1' but '$(cat "$TRY/out")'"; }
err_is() { printf '%b' "$1" | cmp -s - "$TRY/err" || not "standard error is not '$1' but '$(cat "$TRY/err")'"; }
out_has() { grep -qF -e "$1" "$TRY/out" || not "standard output lacks '$1'"; }
err_has() { grep -qF -e "$1" "$TRY/err" || not "standard error lacks '$1'"; }
# Since the case began: how often rt was asked to build, and how often the program ran.
builds() { [ $(($(lines calls) - built)) -eq "$1" ] || not "$(($(lines calls) - built)) builds and not $1"; }
runs() { [ $(($(lines runs) - ran)) -eq "$1" ] || not "the program ran $(($(lines runs) - ran)) times and not $1"; }
# The last build, which is what the program says first.
newest() { echo "build $(lines calls)"; }

printf 'a job\n' >"$TRY/job"

# ---- what is asked

begin 'the verbs are listed'
run ./card
gives 0; out_has './card trace [JOB]'; out_has './card traces JOB..'; err_is ''; builds 0
out_has './card calls [SCRIPT]'; out_has './card assemble [--edition N] [TEXT [REGISTERS]]'; out_has './card texts TEXT..'
end

begin 'an unknown verb'
run ./card weave "$TRY/job"
gives 2; out_is ''; err_has weave; err_has './card trace [JOB]'; builds 0
end

begin 'too many files'
run ./card trace "$TRY/job" "$TRY/job"
gives 2; out_is ''; err_has 'usage: ./card trace [JOB]'; builds 0
end

begin 'too many files beside one on standard input'
run ./card assemble "$TRY/job" "$TRY/job" "$TRY/job"
gives 2; out_is ''; err_has 'usage: ./card assemble [--edition N] [TEXT [REGISTERS]]'; builds 0
end

begin 'an edition that there is not, one that is missing, and one for a verb that has none'
run ./card assemble --edition 3 "$TRY/job"
gives 2; out_is ''; err_has 'usage: ./card assemble [--edition N]'; builds 0
run ./card assemble --edition
gives 2; out_is ''; err_has 'usage: ./card assemble [--edition N]'; builds 0
run ./card assemble --edition "$TRY/job"
gives 2; out_is ''; err_has 'usage: ./card assemble [--edition N]'; builds 0
run ./card trace --edition 2 "$TRY/job"
gives 2; out_is ''; err_has 'usage: ./card trace [JOB]'; builds 0
end

begin 'too few files'
run ./card traces
gives 2; out_is ''; err_has 'usage: ./card traces JOB..'; builds 0
end

begin 'a missing file, said before anything is built'
run ./card trace "$TRY/missing.job"
gives 2; out_is ''; err_has "$TRY/missing.job"; builds 0
end

begin 'a second file that is missing, said before anything is built'
run ./card assemble "$TRY/job" "$TRY/missing"
gives 2; out_is ''; err_has "$TRY/missing: there is no such file"; builds 0
end

begin 'a folder as file'
run ./card trace "$TRY/elsewhere"
gives 2; out_is ''; err_has "$TRY/elsewhere"; builds 0
end

if [ "$(id -u)" -eq 0 ]; then
    skip 'a file without permission: root may read any'
else
    begin 'a file without permission'
    : >"$TRY/secret"
    chmod 0 "$TRY/secret"
    run ./card trace "$TRY/secret"
    gives 2; out_is ''; err_has "$TRY/secret"; builds 0
    end
fi

begin 'no rt on the path'
mkdir "$TRY/few"
for tool in sh dirname readlink rm; do ln -s "$(command -v "$tool")" "$TRY/few/$tool"; done
run env PATH="$TRY/few" ./card trace "$TRY/job"
gives 3; out_is ''; err_has 'rt is not on the path'; builds 0
end

# ---- building

begin "the first use builds and counts from 1 of $total to $total of $total"
run ./card trace "$TRY/job"
gives 0; out_is "$(newest)\na job\n"; builds 1; runs 1
err_has 'proving and building trace, once; this takes some minutes'
grep -qxF "run in $(pwd -P)/crates/trace" "$TRY/calls" || not 'rt run was not run in the folder of trace'
k=0
while [ "$k" -le "$total" ]; do
    echo "$k of $total"
    k=$((k + 1))
done >"$TRY/counted"
sed -n 's/^card: .*: \([0-9]* of [0-9]*\)$/\1/p' "$TRY/err" | cmp -s - "$TRY/counted" || not 'it did not count so'
end

begin 'the second use does not build'
run ./card trace "$TRY/job"
gives 0; out_is "$(newest)\na job\n"; err_is ''; builds 0; runs 1
end

begin 'nor does one after a source was written again with the same content'
cp "$TRY_LIBRARY/src/lib.rt" "$TRY/same"
rm "$TRY_LIBRARY/src/lib.rt"
cp "$TRY/same" "$TRY_LIBRARY/src/lib.rt"
run ./card trace "$TRY/job"
gives 0; builds 0; runs 1
end

begin 'nor one after a change to what is no source: a document, the file that a test reads, a file beside the sources'
echo new >docs/NEW.md
echo new >>crates/trace/stdout
echo new >"$TRY_LIBRARY/notes"
run ./card trace "$TRY/job"
gives 0; builds 0; runs 1
end

begin 'nor one after a change to a crate that the program does not need'
other=''
names=$(sed -n 's/^\([a-z_]*\):.*/\1/p' crates.txt)
for crate in $names; do
    grep -qx "$crate" "$TRY/crates.trace" || other=$crate
done
for file in crates/"$other"/src/*.rt; do echo '// new' >>"$file"; done
run ./card trace "$TRY/job"
gives 0; builds 0; runs 1
end

begin 'a changed source builds again, and says so'
echo '// new' >>"$TRY_LIBRARY/src/lib.rt"
run ./card trace "$TRY/job"
gives 0; out_is "$(newest)\na job\n"; builds 1; runs 1; err_has 'again'; err_has ": $total of $total"
end

begin 'each of a new source, definition, proof, a removed one, crates.txt and the kit builds again, once'
for change in src specs proofs removed crates.txt kit; do
    case $change in
    src | specs | proofs) mkdir -p "$TRY_LIBRARY/$change"; echo new >"$TRY_LIBRARY/$change/new" ;;
    removed) rm "$TRY_LIBRARY/src/new" ;;
    crates.txt) echo '# new' >>crates.txt ;;
    kit) echo 'stand-in 2' >"$TRY/version" ;;
    esac
    before=$(newest)
    run ./card trace "$TRY/job"
    gives 0
    [ "$(newest)" != "$before" ] || not "$change does not"
    out_is "$(newest)\na job\n"
done
run ./card trace "$TRY/job"
builds 6
end

begin 'a build that fails after a good one: status 3, the log is named, nothing is run and nothing kept'
: >"$TRY/fails"
echo '// wrong' >>"$TRY_LIBRARY/src/lib.rt"
run ./card trace "$TRY/job"
gives 3; out_is ''; err_has 'could not be built'; err_has "$repository/target/card/trace.log"; builds 1; runs 0
grep -qx 'logic=not-proved' target/card/trace.log || not 'the log does not say what rt said'
[ ! -e target/card/trace ] || not 'the program is kept'
[ ! -e target/card/trace.stamp ] || not 'the stamp is kept'
end

begin 'the use after it tries again, though nothing has changed'
run ./card trace "$TRY/job"
gives 3; out_is ''; builds 1; runs 0
end

begin 'and runs once the build is good'
rm "$TRY/fails"
run ./card trace "$TRY/job"
gives 0; out_is "$(newest)\na job\n"; builds 1; runs 1
end

begin 'a first build that fails, and is tried again'
rm -r target
: >"$TRY/fails"
run ./card trace "$TRY/job"
gives 3; out_is ''; builds 1; runs 0
run ./card trace "$TRY/job"
gives 3; out_is ''; builds 2; runs 0
rm "$TRY/fails"
run ./card trace "$TRY/job"
gives 0; out_is "$(newest)\na job\n"; builds 3; runs 1
end

begin 'a source that is edited while it builds: built again before it is run, and not once more'
: >"$TRY/meanwhile"
echo '// before' >>"$TRY_LIBRARY/src/lib.rt"
run ./card trace "$TRY/job"
gives 0; out_is "$(newest)\na job\n"; builds 2; runs 1
run ./card trace "$TRY/job"
gives 0; builds 2; runs 2
end

begin 'UNWRITTEN on standard error gives 3'
run env TRY_ERR=UNWRITTEN ./card trace "$TRY/job"
gives 3; err_has UNWRITTEN; builds 0
end

begin 'a program that was removed is built again'
rm target/card/trace
run ./card trace "$TRY/job"
gives 0; out_is "$(newest)\na job\n"; builds 1; runs 1
end

if command -v timeout >/dev/null; then
    for signal in INT TERM; do
        begin "a build that is broken off by $signal keeps nothing, and the next use builds"
        : >"$TRY/slow"
        echo '// slow' >>"$TRY_LIBRARY/src/lib.rt"
        run timeout -s "$signal" 1 ./card trace "$TRY/job"
        gives 124; out_is ''; runs 0
        [ ! -e target/card/trace ] || not 'the program is kept'
        [ ! -e target/card/trace.stamp ] || not 'the stamp is kept'
        rm "$TRY/slow"
        run ./card trace "$TRY/job"
        gives 0; out_is "$(newest)\na job\n"; builds 2; runs 1
        end
    done
else
    skip 'a build that is broken off: there is no command timeout'
fi

begin 'two first uses at once'
rm -r target
: >"$TRY/slow"
./card trace "$TRY/job" >"$TRY/out2" 2>/dev/null &
run ./card trace "$TRY/job"
wait "$!" || not "the other gave status $?"
rm "$TRY/slow"
gives 0; runs 2; out_has 'a job'
cmp -s "$TRY/out" "$TRY/out2" || not 'they differ'
! command -v flock >/dev/null || builds 1
end

begin 'nothing else is left in target/card, nor in the folder for temporary files'
ls target/card >"$TRY/left"
printf '%s\n' lock trace trace.log trace.stamp | cmp -s - "$TRY/left" || not "there is $(tr '\n' ' ' <"$TRY/left")"
mkdir "$TRY/temporary"
run env TMPDIR="$TRY/temporary" ./card trace "$TRY/job"
gives 0
[ -z "$(ls "$TRY/temporary")" ] || not 'a temporary file is left'
end

# ---- running

begin 'REFUSED on standard output: status 1'
run env TRY_OUT='REFUSED 4' ./card trace "$TRY/job"
gives 1; out_is "$(newest)\na job\nREFUSED 4\n"; err_is ''
end

begin 'REFUSED on standard error: status 1'
run env TRY_ERR='REFUSED 4' ./card trace "$TRY/job"
gives 1; out_is "$(newest)\na job\n"; err_is 'REFUSED 4\n'
end

begin 'REFUSED within a line, or as a part of a name, is no refusal'
run env TRY_OUT='not REFUSED 4' ./card trace "$TRY/job"
gives 0
run env TRY_OUT='REFUSED.job' ./card trace "$TRY/job"
gives 0
end

begin 'UNREADABLE on standard error, with and without a name: status 2'
run env TRY_ERR=UNREADABLE ./card trace "$TRY/job"
gives 2; err_is 'UNREADABLE\n'
run env TRY_ERR='UNREADABLE a b.job' ./card trace "$TRY/job"
gives 2; err_is 'UNREADABLE a b.job\n'
end

begin 'UNREADABLE and REFUSED: status 2'
run env TRY_OUT='REFUSED 1' TRY_ERR='UNREADABLE x.job' ./card trace "$TRY/job"
gives 2; out_has 'REFUSED 1'; err_is 'UNREADABLE x.job\n'
end

begin 'a program that dies: status 3, whatever it printed'
run env TRY_DIES=1 ./card trace "$TRY/job"
gives 3; out_is "$(newest)\na job\n"; err_has 'did not run to its end'
run env TRY_DIES=1 TRY_OUT='REFUSED 1' ./card trace "$TRY/job"
gives 3
end

if [ -w /dev/full ]; then
    begin 'standard output that is full: status 3 and not 1'
    status=0
    ./card trace "$TRY/job" >/dev/full 2>"$TRY/err" || status=$?
    gives 3
    end
else
    skip 'standard output that is full: there is no /dev/full'
fi

begin 'standard output and standard error come as the program wrote them'
printf 'a\\b\t%%s\r\n\n  \001\377 no newline' >"$TRY/odd"
run env TRY_ERR='  one\n  %s' ./card trace "$TRY/odd"
gives 0; err_is '  one\\n  %s\n'
{ newest; cat "$TRY/odd"; } | cmp -s - "$TRY/out" || not 'standard output was changed'
end

begin 'standard input from a file'
run ./card trace <"$TRY/job"
gives 0; out_is "$(newest)\na job\n"
end

begin 'standard input from a pipe'
status=0
printf 'piped\n' | ./card trace >"$TRY/out" 2>"$TRY/err" || status=$?
gives 0; out_is "$(newest)\npiped\n"; err_is ''
end

begin 'standard input from /dev/null is a job of no bytes'
run ./card trace </dev/null
gives 0; out_is "$(newest)\n"; err_is ''
end

begin 'standard input from a folder: status 2'
run ./card trace <"$TRY/elsewhere"
gives 2; err_is 'UNREADABLE\n'
end

begin 'standard input is not used up by a build'
rm -r target
status=0
printf 'piped\n' | ./card trace >"$TRY/out" 2>"$TRY/err" || status=$?
gives 0; out_is "$(newest)\npiped\n"; builds 1
end

begin 'a name with a space'
printf 'spaced\n' >"$TRY/a  job"
run ./card trace "$TRY/a  job"
gives 0; out_is "$(newest)\nspaced\n"
end

begin 'a name that begins with a hyphen'
printf 'hyphened\n' >-e
run ./card trace -e
gives 0; out_is "$(newest)\nhyphened\n"
rm ./-e
end

begin 'several files, by their names and in their order'
run ./card traces "$TRY/job" 'a  b.job' -n missing.job
gives 0; builds 1; out_is "$(newest)\nname $TRY/job\nname a  b.job\nname -n\nname missing.job\n"
err_has "proving and building traces, once"; err_has ": $total_of_traces of $total_of_traces"
run ./card traces one.job
gives 0; builds 1; out_is "$(newest)\nname one.job\n"
end

begin 'the first file on standard input, and the other by its name'
printf 'registers\n' >'a  second'
run env TRY_READS=1 ./card assemble "$TRY/job" 'a  second'
gives 0; builds 1; out_is "$(newest)\nname a  second\na job\n"
run ./card assemble "$TRY/job"
gives 0; builds 1; out_is "$(newest)\na job\n"
end

begin 'an edition in front of the files is handed on, and a file of that name is none'
run env TRY_READS=1 ./card assemble --edition 2 "$TRY/job" 'a  second'
gives 0; out_is "$(newest)\nname --edition\nname 2\nname a  second\na job\n"
run env TRY_READS=1 ./card assemble --edition 1 "$TRY/job"
gives 0; out_is "$(newest)\nname --edition\nname 1\na job\n"
cp "$TRY/job" "$repository/--edition"
run env TRY_READS=1 ./card assemble "$TRY/job" --edition
gives 0; out_is "$(newest)\nname --edition\nname 1\nname --edition\na job\n"
rm ./--edition
end

begin 'bytes on standard output that look like a refusal are none; a refusal on standard error gives 1'
run env TRY_OUT='REFUSED 4' ./card assemble "$TRY/job"
gives 0; out_has 'REFUSED 4'; err_is ''
run env TRY_ERR='REFUSED 11 1' ./card assemble "$TRY/job"
gives 1; err_is 'REFUSED 11 1\n'
end

begin 'from another folder, with a name that is relative to it'
cp "$TRY/job" "$TRY/elsewhere/near"
cd "$TRY/elsewhere" || exit 1
run '../the repository/card' trace near
gives 0; builds 0; out_has 'a job'; err_is ''
end

begin 'through a symbolic link, and a link to that'
ln -s '../the repository/card' one
ln -s "$TRY/elsewhere/one" "$TRY/two"
run ./one trace near
gives 0; builds 0; out_has 'a job'; err_is ''
run "$TRY/two" trace near
gives 0; builds 0; out_has 'a job'; err_is ''
end

begin 'by name, from the path'
run env PATH="$repository:$PATH" card trace near
gives 0; builds 0; out_has 'a job'; err_is ''
end

# ---- the real programs

cd "$here" || exit 1
PATH=$own_path

# Whether the real program can be tried on this example: it is run once with its messages shown, since it may have to build, and one wants to see how far it is.
is_there() { # VERB EXAMPLE [PROGRAM]
    if ! command -v rt >/dev/null; then
        skip "the real $1: the kit's command rt is not on the path"
    elif [ -z "$real" ] && [ ! -x "target/card/${3-$1}" ]; then
        skip "the real $1: ./card has not built it yet, and --real was not asked for"
    elif ! ./card "$1" "$2" >/dev/null; then
        begin "the real $1"
        not 'it could not be built or run'
        end
    else
        return 0
    fi
    return 1
}
prints() { cmp -s "$1" "$TRY/out" || not "it is not what $1 has"; }

for program in trace traces; do
    is_there "$program" examples/sample.job || continue
    for job in sample larger; do
        begin "the real $program on examples/$job.job"
        run ./card "$program" "examples/$job.job"
        { [ "$program" = trace ] || echo "examples/$job.job"; cat "examples/$job.trace"; } >"$TRY/expected"
        gives 0; prints "$TRY/expected"
        end
    done

    begin "the real $program on a job that is refused and on one that is missing"
    named=''
    [ "$program" = trace ] || named="$TRY/job\n"
    run ./card "$program" "$TRY/job"
    gives 1; out_is "${named}REFUSED 1\n"; err_is ''
    run ./card "$program" "$TRY/missing.job"
    gives 2; err_has "$TRY/missing.job"
    end
done

if is_there calls examples/calls.txt; then
    begin 'the real calls on examples/calls.txt'
    run ./card calls examples/calls.txt
    gives 0; prints examples/calls.answers; err_is ''
    end

    begin 'a script on standard input, and a job whose name has spaces'
    cp examples/sample.job "$TRY/a job of words"
    status=0
    printf 'load %s\ngo\nrun 9' "$TRY/a job of words" | ./card calls >"$TRY/out" 2>"$TRY/err" || status=$?
    gives 0; out_is "load $TRY/a job of words = 0 0\ngo = 0\nrun 9 = 0 5\n"; err_is ''
    end

    begin 'a script with a job that is refused, one that is missing and a folder'
    printf 'load %s\nload %s\nload %s\ndrained\n' "$TRY/job" "$TRY/missing.job" "$TRY/elsewhere" >"$TRY/script"
    run ./card calls "$TRY/script"
    gives 2; err_is "UNREADABLE $TRY/missing.job\nUNREADABLE $TRY/elsewhere\n"
    out_is "load $TRY/job = 1 0\nload $TRY/missing.job = UNREADABLE\nload $TRY/elsewhere = UNREADABLE\ndrained = 0 1\n"
    end

    begin 'a script with lines that are no calls: each is answered in its line'
    printf 'stop\n\ngo\r\nrun 4294967296\nREFUSED 4\ngo\n' >"$TRY/script"
    run ./card calls "$TRY/script"
    gives 0; out_is 'stop = UNKNOWN\n = UNKNOWN\ngo\r = UNKNOWN\nrun 4294967296 = UNKNOWN\nREFUSED 4 = UNKNOWN\ngo = 0\n'; err_is ''
    end

    begin 'the ones of a word, and of what is no word'
    printf 'ones F00F0137\nones f00f0137\nones F00F013\n' >"$TRY/script"
    run ./card calls "$TRY/script"
    gives 0; out_is 'ones F00F0137 = A00A0126 40040123 04040105 00080006\nones f00f0137 = UNKNOWN\nones F00F013 = UNKNOWN\n'; err_is ''
    end

    begin 'a script that is missing, and one that cannot be read'
    run ./card calls "$TRY/missing"
    gives 2; out_is ''
    run ./card calls <"$TRY/elsewhere"
    gives 2; out_is ''; err_is 'UNREADABLE\n'
    end
fi

if is_there assemble examples/sample.text; then
    begin 'the real assemble on examples/sample.text'
    run ./card assemble examples/sample.text
    gives 0; prints examples/sample.job; err_is ''
    end

    begin 'with the bytes of a register'
    printf '0123456789abcdef' >"$TRY/registers"
    run ./card assemble examples/sample.text "$TRY/registers"
    { printf '\002\0\001\0'; tail -c +5 examples/sample.job; cat "$TRY/registers"; } >"$TRY/expected"
    gives 0; prints "$TRY/expected"; err_is ''
    end

    begin 'a job of the second edition; its register 0 must be zero'
    run ./card assemble --edition 2 examples/sample.text
    { head -c 4 examples/sample.job; printf '\014\0\024\0\002\0\0\0'; tail -c +9 examples/sample.job; } >"$TRY/expected"
    gives 0; prints "$TRY/expected"; err_is ''
    head -c 32 /dev/zero >"$TRY/zeros"
    run ./card assemble --edition 2 examples/sample.text "$TRY/zeros"
    { printf '\002\0\002\0'; tail -c +5 "$TRY/expected"; cat "$TRY/zeros"; } >"$TRY/longer"
    gives 0; prints "$TRY/longer"; err_is ''
    run ./card assemble --edition 2 examples/sample.text "$TRY/registers"
    gives 1; out_is ''; err_is 'REFUSED 15\n'
    run ./card assemble --edition 1 examples/sample.text
    gives 0; prints examples/sample.job; err_is ''
    end

    begin 'a text that is refused, and registers that are'
    printf 'nop\nshrhi 1 2 16\n' >"$TRY/refused"
    run ./card assemble "$TRY/refused"
    gives 1; out_is ''; err_is 'REFUSED 12 2\n'
    run ./card assemble examples/sample.text "$TRY/refused"
    gives 1; out_is ''; err_is 'REFUSED 3\n'
    end

    begin 'a text and registers that are missing'
    run ./card assemble "$TRY/missing"
    gives 2; out_is ''
    run ./card assemble examples/sample.text "$TRY/missing"
    gives 2; out_is ''
    end

    if is_there trace examples/sample.job; then
        begin 'a text through the real assemble and trace: two li of one register'
        run ./card assemble examples/two-li.text
        gives 0; err_is ''
        cp "$TRY/out" "$TRY/two-li.job"
        run ./card trace "$TRY/two-li.job"
        gives 0; prints examples/two-li.trace; err_is ''
        end

        begin 'a text in both editions: register 0 written, and wired to zero'
        for edition in 1 2; do
            run ./card assemble --edition $edition examples/register-0.text
            gives 0; err_is ''
            cp "$TRY/out" "$TRY/register-0.job"
            run ./card trace "$TRY/register-0.job"
            gives 0; prints examples/register-0-edition-$edition.trace; err_is ''
            if is_there list examples/sample.job listing; then
                run ./card list "$TRY/register-0.job"
                gives 0; prints examples/register-0.text; err_is ''
            fi
        done
        end

        begin 'a text whose row shows a mark: one lane clamped, one on the limit'
        run ./card assemble examples/clamped.text
        gives 0; err_is ''
        cp "$TRY/out" "$TRY/clamped.job"
        run ./card trace "$TRY/clamped.job"
        gives 0; prints examples/clamped.trace; out_has '7FFF7FFF 01'; err_is ''
        end
    fi
fi

if is_there texts examples/sample.text; then
    begin 'the real texts on a good, a refused and a missing text'
    printf 'nop\n\n' >"$TRY/refused"
    run ./card texts examples/sample.text "$TRY/refused"
    gives 1; out_is "examples/sample.text\nWORDS 2\n00000A1\n1810422\n$TRY/refused\nREFUSED 11 2\n"; err_is ''
    run ./card texts "$TRY/missing"
    gives 2; err_is "UNREADABLE $TRY/missing\n"
    end
fi

if is_there list examples/sample.job listing; then
    begin 'the real list on examples/sample.job and examples/larger.job, from a name and from standard input'
    run ./card list examples/sample.job
    gives 0; prints examples/sample.text; err_is ''
    run ./card list <examples/larger.job
    gives 0; prints examples/larger.text; err_is ''
    end

    begin 'the real list on a job that is refused and on one that is missing'
    run ./card list "$TRY/job"
    gives 1; out_is ''; err_is 'REFUSED 1\n'
    run ./card list "$TRY/missing.job"
    gives 2; out_is ''; err_has "$TRY/missing.job"
    end

    if is_there assemble examples/sample.text; then
        begin 'a job through the real list and assemble: the same file; with its registers, too'
        status=0
        ./card list examples/sample.job | ./card assemble >"$TRY/out" 2>"$TRY/err" || status=$?
        gives 0; prints examples/sample.job; err_is ''
        tail -c 512 examples/larger.job >"$TRY/registers"
        status=0
        ./card list examples/larger.job | ./card assemble /dev/stdin "$TRY/registers" >"$TRY/out" 2>"$TRY/err" || status=$?
        gives 0; prints examples/larger.job; err_is ''
        end
    fi
fi

if is_there listings examples/sample.job; then
    begin 'the real listings on a good, a refused and a missing job'
    run ./card listings examples/sample.job "$TRY/job"
    gives 1; out_is "examples/sample.job\nli 1 0 5\nau 2 1 1\n\n$TRY/job\nREFUSED 1\n\n"; err_is ''
    run ./card listings "$TRY/missing"
    gives 2; out_is "$TRY/missing\n\n"; err_is "UNREADABLE $TRY/missing\n"
    end
fi

echo "$passed passed, $failed failed"
[ "$failed" -eq 0 ]
