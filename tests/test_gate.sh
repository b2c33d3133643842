# The gate itself: tests/run on a made-up repository whose rt, tests and apt-get are stubs that say
# what they are told. Each case breaks one thing and names the last line and the status due.
set -u
here=$(cd "$(dirname "$0")/.." && pwd)
room=$(mktemp -d) && trap 'rm -rf "$room"' EXIT
unset MAKEFLAGS MAKELEVEL
passed=0 failed=0
check() { # WHAT CONDITION ..
  local what=$1; shift
  if "$@"; then passed=$((passed + 1)); else failed=$((failed + 1)); echo "FAIL $what"; fi
}
file() { mkdir -p "$(dirname "$1")" && cat >"$1"; }

# a green repository: rt counts 4, the three host tests 2, 1 and 3
fresh() {
  rm -rf "$room/repo" && mkdir -p "$room/repo/tests" "$room/repo/stub" && cd "$room/repo" || exit 1
  cp -r "$here/.ci" "$here/Makefile" . && cp "$here"/tests/{run,tally,need,spent.py} tests/
  mkdir tools && cp "$here/tools/leftovers" tools/ && cp "$here/tools/archive" tools/
  echo 'one:' >crates.txt
  printf '%s\n' 'rt: one proved' 'rt: must-fail one/a.edit: refused, as it must be: ./proofs/x.antt:1:1: error: `f`: the two types differ only where one has `1`' \
    'rt: two ran, and wrote what its file stdout has' \
    'rt: ok; handles allowed: none; must-fail edits: 1 refused; every proof and must-fail edit was done in this run' '4 passed, 0 failed' >stub/ci
  echo 0 >stub/ci.status
  echo 'file: src/lib.rt' | file crates/one/must-fail/a.edit
  echo 'print("2 passed, 0 failed")' >tests/test_p.py
  echo 'echo "1 passed, 0 failed"' >tests/test_s.sh
  printf '#include <stdio.h>\nint main(void) { puts("3 passed, 0 failed"); return 0; }\n' >tests/test_c.c
}
file "$room/bin/rt" <<'STUB'
#!/bin/sh
case $1 in
ci) echo "$*:$(ls -A | tr '\n' ' ')" >../ci.found; [ ! -f stub/prove ] || . stub/prove; cat stub/ci; exit "$(cat stub/ci.status)" ;;
lib) mkdir -p out; cp ../../stub/archive out/libspirerook.a ;;
esac
STUB
# each gate starts three programs in Python: without what a site adds they start twice as fast
printf '#!/bin/sh\nexec "%s" -S -E "$@"\n' "$(python3 -c 'import sys; print(sys.executable)')" >"$room/bin/python3"
chmod +x "$room/bin/rt" "$room/bin/python3"

gate() { # NAME STATUS LAST
  local status
  CI=true PATH="$room/bin:$PATH" .ci/run >out 2>err </dev/null; status=$(($? != 0))
  check "$1: status $status, not $2" [ "$status" -eq "$2" ]
  check "$1: last line '$(tail -n 1 out)', not '$3'" [ "$(tail -n 1 out)" = "$3" ]
  check "$1: another tally stands alone" [ "$(grep -cE '^[0-9]+ passed, [0-9]+ failed$' out)" -eq 1 ]
}
said() { check "not said: $1" grep -qF -- "$1" out; }

fresh; gate green 0 '10 passed, 0 failed'
check "total time" grep -q '^total time: [0-9]* s$' out
check "a time of rt ci" grep -q '^ *[0-9.]*  rt ci$' out
# rt ci is run with no names, and finds what was there and nothing else; what stood in build/ is not trusted after it
fresh; echo old | file build/tests/old; echo kept | file crates/one/out/kept; before=$(ls -A | tr '\n' ' '); gate 'a checkout that was used' 0 '10 passed, 0 failed'
check "rt ci as it stands" [ "$(sed 's/\(err\|out\) //g' ../ci.found)" = "ci:$before" ]
check "what rt left is left to it" [ -f crates/one/out/kept ]; check "what stood in build/ is gone" [ ! -e build/tests/old ]
# what the processor's seconds were, by a program that tells made-up ones
seconds() { printf 'import sys\nif sys.argv[1] == "steps":\n    print("%s")\n' "$1" >tests/spent.py; } # LINES
fresh; seconds '3003\tproof of two\n3007\tproof of one\n3005\tmust-fail one/a'; gate 'times' 0 '10 passed, 0 failed'
check "times of rt, slowest first" [ "$(grep -A 3 '^the slowest' out | tail -n 3 | tr -s ' ' | tr '\n' ';')" = ' 3007 proof of one; 3005 must-fail one/a; 3003 proof of two;' ]
fresh; seconds "$(for i in 1 2 3 4 5 6 7 8 9; do printf '301%s\\tproof of many_%s\\n' $i $i; done)3007\\tproof of one"; gate many 0 '10 passed, 0 failed'
check "the ten slowest" [ "$(sed '1,/^the slowest/d; /^total/,$d' out | awk '{print $1}' | tr '\n' ' ')" = '3019 3018 3017 3016 3015 3014 3013 3012 3011 3007 ' ]
fresh; printf 'print("2 passed, 1 failed")\nraise SystemExit(1)\n' >tests/test_p.py; gate 'failing test' 1 '10 passed, 1 failed'; said 'FAILED tests/test_p.py: 1 failed'
fresh; echo 'echo "1 passed, 2 failed"' >tests/test_s.sh; gate 'failures and status 0' 1 '10 passed, 3 failed'
fresh; printf 'echo "1 passed, 0 failed"\nexit 3\n' >tests/test_s.sh; gate 'status 3 and no failure' 1 '10 passed, 1 failed'
fresh; echo 'echo done' >tests/test_s.sh; gate 'no tally' 1 '9 passed, 1 failed'; said 'FAILED tests/test_s.sh: no tally, status 0'
fresh; printf 'echo "1 passed, 0 failed"\necho more\n' >tests/test_s.sh; gate 'tally not last' 1 '9 passed, 1 failed'
fresh; echo ':' >tests/test_s.sh; gate 'silent test' 1 '9 passed, 1 failed'
fresh; echo 'echo "0 passed, 0 failed"' >tests/test_s.sh; gate 'no test run' 1 '9 passed, 1 failed'
fresh; printf 'printf "1 passed, 0 failed"\necho late >&2\n' >tests/test_s.sh; gate 'no line end, and a late word on standard error' 0 '10 passed, 0 failed'
fresh; sed -i 's/{ puts/{ int unused; puts/' tests/test_c.c; gate 'a warning of cc' 1 '7 passed, 1 failed'
fresh; rm tests/test_*; gate 'no host test' 0 '4 passed, 0 failed'
fresh; echo '3 passed, 1 failed' >>stub/ci; echo 1 >stub/ci.status; gate 'an unproved crate' 1 '3 passed, 1 failed'; said 'host tests are not run'
fresh; echo '3 passed, 1 failed' >>stub/ci; echo 1 >stub/ci.status; sed -i '/must-fail/d' stub/ci; gate 'an edit not tried since its crate is unproved' 1 '3 passed, 1 failed'
fresh; for t in view demo view_limits; do echo 'print("9 passed, 0 failed")' >tests/test_$t.py; done; gate 'tests that take long' 0 '37 passed, 0 failed'
check "they come first, each once" [ "$(grep '^the step' out | cut -d: -f1 | tr '\n' ';')" = 'the step rt ci;the step tests/test_view_limits.py;the step tests/test_demo.py;the step tests/test_view.py;the step tests/test_p.py;the step tests/test_s.sh;the step tests/test_c.c;' ]
fresh; echo 'print("cases of all tests")' >tests/counts.py; gate 'the sum of cases' 0 '10 passed, 0 failed'; said 'cases of all tests'
fresh; echo 'print(1 / 0)' >tests/counts.py; gate 'no sum of cases' 0 '10 passed, 0 failed'
fresh; echo 1 >stub/ci.status; gate 'rt ends badly' 1 '4 passed, 1 failed'
fresh; echo 'rt: broken' >stub/ci; echo 2 >stub/ci.status; gate 'rt without tally' 1 '0 passed, 1 failed'
# rt ci tells of a crate that is not laid out, and counts it as not proved
fresh; printf '%s\n' 'rt: run rt fmt in the crate folder' 'rt: one NOT PROVED' 'rt: FAILED: one' '3 passed, 1 failed' >stub/ci; echo 1 >stub/ci.status
gate 'bad layout' 1 '3 passed, 1 failed'; said 'FAILED rt ci: 1 failed'; said 'rt: run rt fmt'
edit() { sed -i "s|^rt: must-fail one/a.*|rt: must-fail one/a.edit: ${1//&/\\&}|" stub/ci; } # WHAT RT TELLS OF IT
fresh; edit 'refused, as it must be (only because a proof file names what the edit took away, so this says little of the contract: change a value and keep the names): ./proofs/x.antt:1:1: error: the module has no `returns-3`'
gate 'an edit that unfits its proof' 1 '10 passed, 1 failed'; said 'one/a is refused only because'
fresh; edit 'refused, as it must be: ./proofs/x.antt:1:1: error: the record `Goals` has no field `returns-add`'; gate 'an edit that asks one goal more' 1 '10 passed, 1 failed'; said 'one/a is refused only because'
fresh; edit 'refused, as it must be: ./proofs/x.antt:1:1: error: `f`: `*` is not in scope'; gate 'an edit with a name that is not known' 1 '10 passed, 1 failed'; said 'one/a is refused only because'
fresh; sed -i '/must-fail one/a note: ./proofs/y.antt:1:1: error: has no `b`' stub/ci; gate 'the same as a second error' 0 '10 passed, 0 failed'
fresh; edit 'refused, as it must be: ./proofs/x.antt:1:1: error: `f`: `search` stopped 5 lemmas deep, with lemmas still to try'; gate 'an edit with no plain fact' 1 '10 passed, 1 failed'; said 'one/a is refused, and rt tells no plain fact'
fresh; edit 'refused, as it must be (only by a limit of the prover, which gave no verdict, so this says less of the contract: choose a change that it refuses sooner): x: error'; gate 'an edit at a limit' 1 '10 passed, 1 failed'; said 'one/a is refused, and rt tells no plain fact'
fresh; edit 'refused, as it must be'; gate 'an edit of which no goal is told' 1 '10 passed, 1 failed'; said 'one/a is refused, and rt tells no plain fact'
fresh; edit 'refused, as it must be: ./proofs/x.antt:1:1: error: `f`: `simp`: no equation of the list has an instance in the goal'; gate 'an edit that takes away what simp rewrites' 1 '10 passed, 1 failed'; said 'one/a is refused, and rt tells no plain fact'
fresh; edit 'refused, as it must be: ./proofs/x.antt:1:1: error: `f`: something that is no fact'; gate 'an edit with words that tell no fact' 1 '10 passed, 1 failed'; said 'one/a is refused, and rt tells no plain fact'
fresh; edit 'refused, as it must be: ./proofs/x.antt:1:1: error: `f`: as printed, the two types differ only where one has `1` (expected) and the other has `2`'; gate 'an edit that makes two things differ' 0 '10 passed, 0 failed'
fresh; edit 'refused, as it must be: ./proofs/x.antt:1:1: error: `f`: `omega`: All of that holds, and the goal fails, at `n` = 3'; gate 'an edit that fails at a number' 0 '10 passed, 0 failed'
fresh; edit 'refused, as it must be: ./proofs/f/Answers.antt:14:27: error: `returns`: `search`: no proof of `a ◌≡◌ b`'; gate 'an edit at which a goal has no proof' 0 '10 passed, 0 failed'
fresh; edit 'refused, as it must be: src/lib.rt:3:1: error: `f`: not proved: the goal is still open'; gate 'an edit that leaves a goal open' 0 '10 passed, 0 failed'
fresh; sed -i '/must-fail one/d' stub/ci; gate 'an edit that was not tried' 1 '10 passed, 1 failed'; said 'one/a was not tried'
bad_edits() { sed -i "s/must-fail edits: 1 refused/must-fail edits: 1 refused, $1/" stub/ci; } # WHAT RT COUNTS
fresh; bad_edits '1 bad'; gate 'a bad edit that rt counts' 1 '10 passed, 1 failed'; said 'FAILED must-fail edits: rt ci passed with 1 bad must-fail edits'
fresh; bad_edits '1 of them only by a limit, 12 bad'; gate 'bad edits behind other words' 1 '10 passed, 1 failed'; said 'rt ci passed with 12 bad must-fail edits'
fresh; edit "BAD EDIT: an 'old:' text is in src/lib.rt 0 times, and not once"; gate 'a bad edit that rt tells' 1 '10 passed, 1 failed'; said 'one/a shows nothing: BAD EDIT'
fresh; edit 'NOT REFUSED: the crate is still proved with this edit'; sed -i '/^rt: ok/d' stub/ci; echo '3 passed, 1 failed' >>stub/ci; echo 1 >stub/ci.status; gate 'an edit that is not refused' 1 '3 passed, 1 failed'
fresh; echo 'rt: note: 0 bad' >>stub/ci; echo '4 passed, 0 failed' >>stub/ci; gate 'other words of bad ones' 0 '10 passed, 0 failed'
fresh; mkdir -p crates/spirerook && echo 'spirerook  staticlib :' >>crates.txt; echo 'int three(void); int three(void) { return 3; }' | cc -c -x c -o o.o - && ar rc stub/archive o.o
printf '#include <stdio.h>\nint three(void);\nint main(void) { printf("%%d passed, 0 failed\\n", three()); return 0; }\n' >tests/test_c.c; gate 'the archive' 0 '10 passed, 0 failed'
rm stub/archive; gate 'no archive' 1 '7 passed, 2 failed'; said 'FAILED archive:'

# the processor's seconds: a prover that is a shell under another name, for a proof and for an edit
said_row() { check "no row $*" grep -qxE "$(IFS=' '; echo "$*" | sed 's/ / +/g')" out; } # CELL ..
fresh; mkdir -p "$room/opt/bin" && cp "$(command -v bash)" "$room/opt/bin/rattle"
prover() { echo "\"$room/opt/bin/rattle\" -c 'end=\$((SECONDS + 2)); while [ \$SECONDS -lt \$end ]; do :; done' build --crate-name one \"$1\" &"; } # SOURCE
echo 'pub fn f() {}' | file crates/one/src/lib.rt; printf 'file: src/lib.rt\nold: fn f\nnew: fn g\n' >crates/one/must-fail/a.edit
# an edit is proved in a folder of its own, which has rt's number in its name; here once as it is, and once the crate as it stands
for k in a b; do mkdir -p "$room/edits/$k/src"; cp crates/one/src/lib.rt "$room/edits/$k/src/"; done; sed -i 's/fn f/fn g/' "$room/edits/a/src/lib.rt"
{ prover "$room/repo/crates/one/src/lib.rt"; prover "$room/other/crates/else/src/lib.rt"
  for k in a b; do echo "cp -r '$room/edits/$k' '$room/rt-edit-'\$\$-$k; (cd '$room/rt-edit-'\$\$-$k; $(prover src/lib.rt) wait) &"; done; echo wait; } >stub/prove
gate 'processes of the prover' 0 '10 passed, 0 failed'
said_row one '[0-9.]*[1-9][0-9.]*' 1 '[0-9.]*[1-9][0-9.]*'; said_row all of 1 '[0-9.]+' 1 '[0-9.]+'
check "a process of another folder has no row" eval '! grep -q "^else " out'
check "the crate, its edit, and the crate as it stands below it" [ "$(python3 tests/spent.py steps build/spent.json | grep -v '^0.0' | cut -f 2 | sort | tr '\n' ';')" = 'must-fail one/(as it stands);must-fail one/a;proof of one;' ]
# a prover that has started another and waited for it: its seconds count once, and are those that it tells itself
fresh; echo 'pub fn f() {}' | file crates/one/src/lib.rt; echo 'file: src/lib.rt' >crates/one/must-fail/a.edit
file "$room/inner" <<<"\"$room/opt/bin/rattle\" -c 'end=\$((SECONDS + 3)); while [ \$SECONDS -lt \$end ]; do :; done; times >\"$room/took\"' build --crate-name one crates/one/src/lib.rt; sleep 1"
echo "\"$room/opt/bin/rattle\" -c '. \"$room/inner\"' build --crate-name one crates/one/src/lib.rt" >stub/prove
gate 'a prover that starts another' 0 '10 passed, 0 failed'
took=$(head -n 1 "$room/took" | tr 'ms' '  ' | awk '{ print $2 + $4 }')
check "$took seconds once: $(grep '^one ' out)" [ "$(awk -v took="$took" '$1 == "one" { print ($2 > 0 && $2 < 1.4 * took) }' out)" = 1 ]
fresh; gate 'no process of the prover' 0 '10 passed, 0 failed'; said "no table of the processor's seconds: "
fresh; echo 'raise SystemExit(5)' >tests/spent.py; gate 'a table that fails' 0 '10 passed, 0 failed'; said "no table of the processor's seconds"
fresh; echo '[["one", "", 45.5], ["one", "a", 12.5], ["two", "", 60], ["three", "", 45], ["three", "b", 12]]' >spent.json
python3 tests/spent.py table spent.json >out 2>&1
check "the dearest first" [ "$(awk '{print $1}' out | tr '\n' ' ')" = 'seconds crate two one three all ' ]
check "steps of it" [ "$(python3 tests/spent.py steps spent.json | tr '\t\n' ' ;')" = '45.5 proof of one;12.5 must-fail one/a;60.0 proof of two;45.0 proof of three;12.0 must-fail three/b;' ]
check "no file, no steps" [ -z "$(python3 tests/spent.py steps nowhere.json)" ]
said_row two 60.0 0 0.0 '! its check is over 45 s'; said_row one 45.5 1 12.5 '! its check is over 45 s' '! edit a: 12.5 s'
said_row three 45.0 1 12.0; said_row all of 3 150.5 2 24.5
python3 tests/spent.py table nowhere.json >out 2>&1
check "no file, no table" [ "$?:$(cut -d: -f1 out)" = "0:no table of the processor's seconds" ]

# leftovers, one of each kind
fresh; printf 'use other::thing;\nuse other::more;\npub fn f() { thing() }\n' | file crates/one/src/lib.rt; echo 'one: other' >crates.txt; gate 'a name that is not used' 1 '10 passed, 1 failed'
said 'crates/one/src/lib.rt:2: more is brought in and not used'
fresh; printf 'use other::{more, thing};\nuse std::io::Read;\npub fn f() { thing() }\n' | file crates/one/src/lib.rt; echo 'one staticlib: other' >crates.txt; gate 'one of two in braces' 1 '10 passed, 1 failed'
said 'crates/one/src/lib.rt:1: more is brought in and not used'; check "dropped by itself" [ "$(python3 tools/leftovers --drop >/dev/null; head -n 1 crates/one/src/lib.rt)" = 'use other::thing;' ]
fresh; printf 'use lib.Nat.{◌-◌, ◌<◌}\n\nthere : Type\nthere = a-b < c\n' | file crates/one/specs/A.antt; file crates/one/out/rlib/one.rlib/A.antt <crates/one/specs/A.antt
gate 'an operator that is not used' 1 '10 passed, 1 failed'; said 'crates/one/specs/A.antt:1: ◌-◌ is brought in and not used'
check "no word of what rt made" eval '! grep -q "crates/one/out" out'
fresh; echo 'one: other' >crates.txt; gate 'a crate that is not used' 1 '10 passed, 1 failed'; said 'FAILED leftovers: crates.txt: one names other and does not use it'
fresh; printf -- '--   there   a name\n--   gone    another\n\nthere : Type\n' | file crates/one/specs/A.antt; gate 'a name that is explained and not there' 1 '10 passed, 1 failed'
said 'the glossary explains gone, which the file does not define'
fresh; echo 'pub fn f() {}' | file crates/one/src/lib.rt; printf 'file: src/lib.rt\nold: fn f\nnew: fn g\nfile: src/lib.rt\nold: fn f\nnew: fn h\n' >crates/one/must-fail/a.edit
gate 'an edit that no longer fits' 1 '10 passed, 1 failed'; said 'crates/one/must-fail/a.edit: its old text does not stand once in crates/one/src/lib.rt'

# packages: apt-get is a stub that installs nothing, or the command asked for
need() { PATH="$room/bin:$PATH" bash tests/need "$@" >out 2>&1 </dev/null; }
fresh
printf '#!/bin/sh\nexec "$@"\n' >"$room/bin/sudo"; sed -i 's/exec/shift; exec/' "$room/bin/sudo"
printf '#!/bin/sh\nexit 100\n' >"$room/bin/apt-get"; chmod +x "$room/bin/sudo" "$room/bin/apt-get"
printf '#!/bin/sh\n[ "$1" != "There Serif" ] || echo "There Serif"\n' >"$room/bin/fc-list"; chmod +x "$room/bin/fc-list"
check "what is there needs no package" need bash:bash stdio.h:libc6-dev "font=There Serif:fonts-there"
check "what cannot be had is an error" eval '! need bash:bash no-such-command:no-such-package no/such.h:no-such-dev "font=No Such:fonts-no-such"'
said 'could not install: no-such-package no-such-dev fonts-no-such'
printf '#!/bin/sh\ncase "$*" in *install*such-package) cp "$0" "%s/bin/no-such-command" ;; esac\n' "$room" >"$room/bin/apt-get"
check "what is missing is installed" need no-such-command:no-such-package
printf '#!/bin/sh\nexit 100\n' >"$room/bin/apt-get"; sed -i 's/python3:python3/absent-thing:absent-package/' tests/run
gate 'a package that cannot be had' 1 '10 passed, 1 failed'; said 'FAILED packages: could not install: absent-package'

echo "$passed passed, $failed failed"
[ "$failed" -eq 0 ]
