# What the scripts of tests/, bench/, examples/ and tools/ share; they source it from the project's root.

# Compiles the generator and the second program into target/tests/, side by side, and runs the second program's own tests.
build_tests() {
    command -v rustc >/dev/null || { echo "this needs rustc, 1.63 or newer" >&2; return 2; }
    mkdir -p target/tests
    rustc -O -C codegen-units=1 --edition 2021 -o target/tests/generate tests/generate.rs & generate=$!
    rustc -O -C codegen-units=1 --test --edition 2021 -o target/tests/worked tests/second.rs & worked=$!
    rustc -O -C codegen-units=1 --edition 2021 -o target/tests/second tests/second.rs
    wait $generate || return
    wait $worked || return
    target/tests/worked -q >target/tests/worked.log || { cat target/tests/worked.log; return 1; }
}

# ---- crates
# Whether crates.txt has a line for the crate.
has_crate() {
    grep -qE "^$1([ :]|\$)" crates.txt
}

# The crate that is the static library for C: the one that crates.txt calls so.
library_crate() {
    sed -nE 's/^([a-z0-9_]+) +staticlib\>.*/\1/p' crates.txt | head -n 1
}

# Lines `NAME COMMIT`: the crates that are out of the tree for a time, and where they stand.
crates_left() {
    [ ! -f PORTING-LEFT.md ] || sed -nE 's/^[-*] `?(crates\/)?([a-z0-9_]+)`?: commit `?([0-9a-f]{7,40}).*/\2 \3/p' PORTING-LEFT.md
}

# whole FOLDER: puts the tree into a folder outside of the checkout, without what is built, and the crates that are out for a time beside
# the others, each from its commit, with their lines of crates.txt. So the documents and the header can be held to all crates. Fails where
# a commit is not there.
whole() {
    mkdir -p "$1"
    tar -cf - --exclude=./.git --exclude=./target --exclude='./crates/*/out' . | tar -xf - -C "$1"
    crates_left | while read -r name commit; do
        git archive "$commit" "crates/$name" 2>/dev/null | tar -xf - -C "$1" 2>/dev/null || { echo "needs commit $commit of crates/$name"; return 1; }
        git show "$commit:crates.txt" | grep -E "^$name([ :]|\$)" >>"$1/crates.txt" || { echo "needs the line of $name in crates.txt of commit $commit"; return 1; }
    done
}

# ---- what is built
# The program of a crate, as rt builds it.
program_of() {
    echo "crates/$1/out/$1"
}

# Whether this was built from the tree as it stands: no file that a proof reads is newer.
is_built() {
    [ -f "$1" ] && [ -z "$(find crates.txt crates/*/src crates/*/specs crates/*/proofs -type f -newer "$1" 2>/dev/null | head -n 1)" ]
}

# build CRATE..: proves and builds the program of each crate, where it is not built yet. `rt ci` leaves it built too. `rt run` also runs it,
# here with nothing to read and no arguments.
build() {
    mkdir -p target
    for crate; do
        has_crate "$crate" || { echo "this needs crates/$crate" >&2; return 2; }
        ! is_built "$(program_of "$crate")" || continue
        (cd "crates/$crate" && rt run </dev/null) >"target/$crate.log" 2>&1 || true
        grep -q '^rt: running ' "target/$crate.log" || { tail -n 20 "target/$crate.log"; return 1; }
        touch "$(program_of "$crate")"
    done
}

# Proves the library for C and puts it into target/staticlib/libvydrulka.a. rt names an archive after its crate; the library's own name
# is a copy of that.
build_library() {
    library=$(library_crate)
    [ -n "$library" ] || { echo "this needs a static library in crates.txt" >&2; return 2; }
    mkdir -p target/staticlib
    archive=crates/$library/out/lib$library.a
    if ! is_built "$archive"; then
        (cd "crates/$library" && rt lib) >target/staticlib/rt.log 2>&1 || { tail -n 20 target/staticlib/rt.log; return 1; }
    fi
    cp "$archive" target/staticlib/libvydrulka.a
}

# The compiler for C programs that link the library.
c_compiler() {
    echo cc
}

# Whether that compiler is there, and makes programs for x86-64, as the library is.
has_c_compiler() {
    [ "$(uname -m)" = x86_64 ] && command -v "$(c_compiler)" >/dev/null
}

# Lines `cites CRATE OTHER`: which crates the files of each crate of crates.txt name, as Rattle.OTHER or at the head of a path
# OTHER::.., outside of comments. OTHER may also be a module or a type of the crate's own.
citations() {
    for crate in $(sed -nE 's/^([a-z0-9_]+).*/\1/p' crates.txt); do
        # where std's io is brought in, `io` is that one and not the kit's crate
        std=-
        ! grep -rqE '^use std::(io;|\{.*\bio\b)' "crates/$crate/src" || std=io
        {
            find "crates/$crate" -name out -prune -o -name '*.antt' -exec sed -E 's/(^|[ (])--.*//' {} +
            find "crates/$crate" -name out -prune -o -name '*.rt' -exec sed -E 's,//.*,,' {} +
        } | grep -oE 'Rattle\.[a-z0-9_]+|[A-Za-z0-9_:]+::' | sed -E "s/Rattle\.//; s/::.*//" | grep -vx -e "$std" | sed "s/^/cites $crate /" | sort -u
    done
}
