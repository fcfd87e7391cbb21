# The parts `proving` and `library` of tools/test-command, which reads this by `.`: what ./walkprint and tools/library do where something is to be proved. They
# are tried in a small repository, with a stand-in for the kit's rt.

# A repository of six crates, and a kit whose rt writes what rt writes, in the crate's folder that it is run in. It notes each call in `calls`; where a file `wait`
# stands it waits after the first crate until that is gone; where a file `break` stands, the crate that it names is not proved; where a file `idle`
# stands it makes nothing and ends well; where a file `ends` stands it makes all and ends with the status in it. As rt does, it says nothing of a library that has
# not changed, and builds a program anew unless it is the one that it built.
make_stand_in() {
    small=$work/small fake=$work/kit
    mkdir -p "$small/tools" "$small/scenes" "$fake/bin"
    cp walkprint KIT "$small/"
    cp tools/prove.sh tools/library tools/*.awk "$small/tools/"
    cp scenes/bytes scenes/flat.txt scenes/flat.bin "$small/scenes/"
    printf '%s\n' '# NAME: the crates that it uses' 'low:' 'apart:' 'middle: low io' 'walk_c staticlib: low middle # for C' 'lone staticlib:' 'walkprint: middle' \
        >"$small/crates.txt"
    for crate in low apart middle walk_c lone walkprint; do mkdir -p "$small/crates/$crate/src" && echo "// $crate" >"$small/crates/$crate/src/lib.rt"; done
    cp KIT "$fake/KIT-ID"
    cat >"$fake/bin/rt" <<END
#!/bin/sh
at=$work
fake=$fake
program=$root/crates/walkprint/out/walkprint
END
    cat >>"$fake/bin/rt" <<'END'
echo "$*" >>"$at/calls"
name=${PWD##*/}
below() { case $1 in walk*) echo low middle ;; middle) echo low ;; esac; }
of_text() { for each in $(below "$1") "$1"; do cat "../$each/src/lib.rt"; done | cksum; }
one() {
    echo "rt: $1: begins with what a check kept in another folder"
    echo "rt: chose --jobs 2 for $1"
    mkdir -p "../$1/out/incremental"
    echo "rt: rt check --fix-imports removes those imports, and so does rt tidy once the crate is proved"
    if [ -e "$at/break" ] && [ "$(cat "$at/break")" = "$1" ]; then
        echo "src/lib.rt:1:1: error: a goal is open"
        echo "fn $1::f: not proved"
        echo "logic=not-proved"
        echo "rattle build: nothing was built, since only a proved crate is built"
        [ "$1" = "$name" ] || echo "rt: the library $1 did not build, so nothing above it was checked" >&2
        exit 1
    fi
    echo "fn $1::f: proved"
    echo "logic=proved functions=1 what the prover says"
    while [ -e "$at/wait" ]; do sleep 0.1; done
}
libraries() {
    for library in $(below "$name"); do
        [ "$(of_text "$library")" != "$(cat "../$library/out/rlib/stamp" 2>/dev/null)" ] || continue
        rm -rf "../$library/out/rlib"
        one "$library"
        mkdir -p "../$library/out/rlib" && of_text "$library" >"../$library/out/rlib/stamp"
    done
}
case $* in
run | lib)
    [ ! -e "$at/idle" ] || exit 0
    cat >/dev/null
    ;;
esac
end() { [ ! -e "$at/ends" ] || exit "$(cat "$at/ends")"; }
case $* in
doc) echo "$fake/START-HERE.md" ;;
version) cat "$fake/KIT-ID" ;;
run)
    [ "$name" = walkprint ] || exit 2
    libraries >&2
    if [ "$(of_text walkprint; cksum <out/walkprint)" = "$(cat out/walkprint.stamp 2>/dev/null)" ]; then
        echo "rt: nothing has changed since the last proved build, by out/walkprint.stamp, so nothing is checked now" >&2
    else
        one walkprint >&2
        cp "$program" out/walkprint
        { of_text walkprint; cksum <out/walkprint; } >out/walkprint.stamp
    fi
    echo "rt: running out/walkprint; to give it other input, run that file yourself" >&2
    end
    exec out/walkprint
    ;;
lib)
    case $name in walk_c | lone) ;; *) exit 2 ;; esac
    libraries
    one "$name"
    echo "$name of $(cat ../*/src/lib.rt)" >"out/lib$name.a"
    end
    ;;
*) echo "rt: there is no $*" >&2; exit 2 ;;
esac
END
    chmod +x "$fake/bin/rt"
}
fresh() { rm -rf "$small/target" "$small/crates"/*/out "$work/calls" "$work/wait" "$work/break" "$work/idle" "$work/ends"; : >"$work/calls"; }
calls() { # N WHAT
    tried_that "$2 (rt was called for: $(tr '\n' ';' <"$work/calls"))" test "$(grep -c -v -e '^version' -e '^doc' "$work/calls")" -eq "$1"
}
soon() { # COMMAND...: within five seconds
    left=50
    until "$@"; do
        left=$((left - 1))
        [ "$left" -gt 0 ] || return 1
        sleep 0.1
    done
}
try_proving() {
    walkprint=$small/walkprint made=$small/crates/walkprint/out/walkprint
    RATTLE_HOME=$fake
    export RATTLE_HOME
    fresh
    call 0 scenes/flat.txt
    out_is "$work/flat"
    err_is 'walkprint: proving 3 crates, some minutes
[1/3] low proved
[2/3] middle proved
[3/3] walkprint proved'
    tried_that 'the log lacks what the prover says' grep -q 'logic=proved' "$small/target/walkprint.log"
    tried_that 'the log lacks what rt says' grep -q 'rt: running out/walkprint' "$small/target/walkprint.log"
    call 0 scenes/flat.txt
    out_is "$work/flat"
    quiet
    touch "$small/crates/low/src/lib.rt" "$small/crates.txt"
    echo '// apart' >>"$small/crates/apart/src/lib.rt"
    mkdir -p "$small/crates/low/must-fail" && echo 'file: src/lib.rt' >"$small/crates/low/must-fail/x.edit"
    call 0 scenes/flat.txt
    quiet
    calls 1 'it proves again where nothing has changed'
    echo '// more' >>"$small/crates/low/src/lib.rt"
    call 0 scenes/flat.txt
    err_has 'walkprint: looking through 3 crates, and proving what has changed'
    calls 2 'it does not prove again after a change'
    echo '// more' >>"$small/crates/middle/src/lib.rt"
    call 0 scenes/flat.txt
    err_is 'walkprint: looking through 3 crates, and proving what has changed
[2/3] middle proved
[3/3] walkprint proved'
    calls 3 'it does not prove again after a change in the middle'
    sed 's/^walkprint: middle/walkprint: low middle/' "$small/crates.txt" >"$work/x.txt" && cp "$work/x.txt" "$small/crates.txt"
    call 0 scenes/flat.txt
    calls 4 'it does not prove again where a crate uses others'
    echo 'echo another program' >"$made"
    call 0 scenes/flat.txt
    out_is "$work/flat"
    calls 5 'it takes a program that is not the proved one'
    rm "$made"
    call 0 scenes/flat.txt
    out_is "$work/flat"
    calls 6 'it does not build a program that is gone'
    run_call 0 env -u RATTLE_HOME PATH="$fake/bin:$PATH" "$walkprint" scenes/flat.txt
    out_is "$work/flat"
    quiet

    # what cannot be run is said before anything is proved
    fresh
    call 2 "$work/none.txt"
    echo 'reqest' >"$work/x.txt"
    call 2 "$work/x.txt"
    calls 0 'it proves before it looks at the scene'

    # a line at once, where standard error is a file; and a scene on standard input is the program's, not the prover's
    : >"$work/wait"
    : >"$work/err"
    "$walkprint" <scenes/flat.bin >"$work/out" 2>"$work/err" &
    called='progress into a file'
    tried_that 'the first crate is not told of at once' soon grep -qF '[1/3] low proved' "$work/err"
    tried_that 'more is told of than was done' test "$(wc -l <"$work/err")" -eq 2
    rm "$work/wait"
    wait $!
    out_is "$work/flat"

    # an interrupted run leaves no stamp
    if command -v setsid >/dev/null; then
        for signal in TERM KILL; do
            fresh
            : >"$work/wait"
            : >"$work/err"
            setsid "$walkprint" scenes/flat.txt >"$work/out" 2>"$work/err" &
            group=$!
            called="a run that $signal ends"
            tried_that 'it does not begin' soon grep -qF '[1/3] low proved' "$work/err"
            kill -s "$signal" -- "-$group"
            wait "$group" 2>/dev/null
            tried_that 'it leaves a stamp' test ! -e "$made.proved"
            rm "$work/wait"
            call 0 scenes/flat.txt
            calls 2 'the next run does not prove'
        done
    fi

    if command -v script >/dev/null; then
        fresh
        : >"$work/wait"
        : >"$work/out"
        called='a run that ^C ends at a terminal'
        # What runs in the background ignores ^C, and so does all that it starts: env undoes that, where it can. The file `wait` goes in any case, so that
        # a run that ^C does not end goes on.
        heed=
        ! env --default-signal=INT true 2>/dev/null || heed='env --default-signal=INT '
        { soon grep -qF '[1/3] low proved' "$work/out" && printf '\003' && sleep 1; rm -f "$work/wait"; } |
            script -qfec "$heed$walkprint scenes/flat.txt" /dev/null >"$work/out" 2>&1
        tried_that 'it does not end as it should' test $? -eq 130
        tried_that 'it leaves a stamp' test ! -e "$made.proved"
    fi

    # what is not proved is not run
    for crate in low walkprint; do
        fresh
        case $crate in low) again='proving 3 crates, some minutes' ;; *) again='looking through 3 crates, and proving what has changed' ;; esac
        echo "$crate" >"$work/break"
        call 1 scenes/flat.txt
        silent
        err_has "$crate NOT PROVED"
        tried_that 'it lets the prover talk' test "$(grep -c -e logic= -e 'rt[: ]' "$work/err")" -eq 0
        err_has "walkprint: not proved; $small/target/walkprint.log has what the prover said"
        tried_that 'the log lacks the error' grep -q 'a goal is open' "$small/target/walkprint.log"
        [ "$crate" = walkprint ] || err_has "the library $crate did not build, so nothing above it was checked"
        call 1 scenes/flat.txt
        err_has "walkprint: $again"
        calls 2 'a failed proof counts as one'
        rm "$work/break"
        call 0 scenes/flat.txt
    done
    echo walkprint >"$work/break"
    echo '// more' >>"$small/crates/middle/src/lib.rt"
    call 1 scenes/flat.txt
    silent
    rm "$work/break"

    # nor what rt did not make now, or made and did not end well
    call 0 scenes/flat.txt
    echo '// more' >>"$small/crates/middle/src/lib.rt"
    : >"$work/idle"
    call 1 scenes/flat.txt
    silent
    tried_that 'it leaves a stamp' test ! -e "$made.proved"
    rm "$work/idle"
    echo 1 >"$work/ends"
    call 1 scenes/flat.txt
    silent
    tried_that 'it leaves a stamp' test ! -e "$made.proved"
    rm "$work/ends"
    call 0 scenes/flat.txt
    out_is "$work/flat"

    # a folder that cannot be written, here a file
    for folder in "$small/target" "$small/crates/walkprint/out"; do
        fresh
        : >"$folder"
        call 1 scenes/flat.txt
        err_is "walkprint: cannot write in $small/target or $small/crates/walkprint/out, where the proofs go"
        calls 0 'it proves what it cannot keep'
        rm "$folder"
    done

    # another kit: a warning, and a proof anew
    fresh
    call 0 scenes/flat.txt
    echo 'rattle-kit-0 logic 0' >"$fake/KIT-ID"
    call 0 scenes/flat.txt
    err_has "walkprint: warning: the kit here is rattle-kit-0 logic 0, and the proofs were written for $(cat KIT)"
    calls 2 'it does not prove again with another kit'
    call 0 scenes/flat.txt
    quiet
    run_call 0 "$small/tools/library" lone
    err_has 'library: warning: the kit here is rattle-kit-0 logic 0'
    cp KIT "$fake/KIT-ID"

    # a machine that the kit is not for
    fresh
    printf '#!/bin/sh\necho aarch64\n' >"$work/uname"
    chmod +x "$work/uname"
    for command in "$walkprint scenes/flat.txt" "$small/tools/library"; do
        # shellcheck disable=SC2086
        run_call 1 env PATH="$work:$PATH" $command
        silent
        err_has "the Rattle kit at $fake is for x86_64, and has nothing for this machine, aarch64"
    done
    rm "$work/uname"
    calls 0 'it proves for a machine that the kit is not for'
    unset RATTLE_HOME
    walkprint=$root/walkprint
}
try_library() {
    RATTLE_HOME=$fake
    export RATTLE_HOME
    folder=$small/crates/walk_c/out
    library() { # STATUS WORDS...
        wanted=$1
        shift
        run_call "$wanted" "$small/tools/library" "$@"
    }
    echo "$folder" >"$work/folder"
    fresh
    library 0
    out_is "$work/folder"
    err_is 'library: proving 3 crates, some minutes
[1/3] low proved
[2/3] middle proved
[3/3] walk_c proved'
    tried_that 'the log lacks what the prover says' grep -q 'logic=proved' "$small/target/libwalk_c.log"
    tried_that 'there is no archive' test -s "$folder/libwalk_c.a"
    library 0 walk_c
    out_is "$work/folder"
    quiet
    calls 1 'it proves again where nothing has changed'
    library 0 lone
    echo "$small/crates/lone/out" >"$work/lone"
    out_is "$work/lone"
    err_has '[1/1] lone proved'
    calls 2 'a crate that stands on none is not built by one call'
    echo '// more' >>"$small/crates/low/src/lib.rt"
    library 0
    calls 3 'it does not prove again after a change'
    rm "$folder/libwalk_c.a"
    library 0
    tried_that 'there is no archive' test -s "$folder/libwalk_c.a"
    calls 4 'it does not build an archive that is gone'
    echo '// more' >>"$small/crates/middle/src/lib.rt"
    for crate in middle walk_c; do
        echo "$crate" >"$work/break"
        library 1
        silent
        err_has "$crate NOT PROVED"
        err_has "library: not proved; $small/target/libwalk_c.log has what the prover said"
        tried_that 'it leaves a stamp' test ! -e "$folder/libwalk_c.a.proved"
    done
    rm "$work/break"
    library 0
    echo '// more' >>"$small/crates/low/src/lib.rt"
    : >"$work/idle"
    library 1
    silent
    rm "$work/idle"
    library 0
    out_is "$work/folder"
    library 2 none
    err_is 'library: crates.txt has no crate none'
    for crate in low walkprint; do
        library 2 "$crate"
        silent
        err_is "library: crates.txt has no static library $crate"
    done
    library 2 low middle
    err_has 'usage: tools/library'
    library 2 --none
    library 0 --help
    out_has 'usage: tools/library'
    unset RATTLE_HOME
}
