# What the scripts of c/ share: which files a crate is made of, what is made anew, the kit by links, and the compilers. Sourced from the repository's root.

# Where the kit keeps its tools, and its identity. A script that another one calls is told, since rt takes its time to say so.
if [[ -z ${HIVE_KIT:-} || -z ${HIVE_KIT_VERSION:-} ]]; then
    doc=$(rt doc) || { echo 'c: rt, the command of the Rattle toolchain, is not there' >&2; exit 2; }
    HIVE_KIT=$(dirname "$(readlink -f "$doc")")
    HIVE_KIT_VERSION=$(rt version)
    export HIVE_KIT HIVE_KIT_VERSION
fi
kit=$HIVE_KIT
version=$HIVE_KIT_VERSION
tools=$kit/toolchain

# Prints what crates.txt has behind the colon of a crate's line: the libraries that it uses, the repository's own and the kit's.
named_by() { # CRATE
    awk -v wanted="$1" '{ sub(/#.*/, "") } /:/ { i = index($0, ":"); split(substr($0, 1, i - 1), words, " "); if (words[1] == wanted) print substr($0, i + 1) }' crates.txt
}

# Prints the crates that a crate uses, also through others, each behind those that it uses, and then the crate.
crates_of() { # CRATE
    awk -v wanted="$1" '
        { sub(/#.*/, "") }
        /:/ { i = index($0, ":"); split(substr($0, 1, i - 1), words, " "); uses[words[1]] = substr($0, i + 1) }
        function visit(crate,    words, n, k) {
            if (!(crate in uses) || seen[crate]++) return
            n = split(uses[crate], words, " ")
            for (k = 1; k <= n; k++) visit(words[k])
            print crate
        }
        END { visit(wanted) }' crates.txt
}

# Prints the folders that these crates are made of. What rt keeps beside them, out/, is none of these.
parts_of() { # CRATE..
    local crate part
    for crate; do
        for part in src specs proofs; do [[ ! -d crates/$crate/$part ]] || echo "crates/$crate/$part"; done
    done
}

# Answers whether a result is there, was made with this kit, and nothing that it is made of is younger.
is_fresh() { # RESULT PART..
    [[ -f $1 && -f $1.kit && $(<"$1.kit") == "$version" && -z $(find "${@:2}" -newer "$1" -print -quit) ]]
}

# Marks a result as made. It gets the age of the moment when the making began, so that what changes meanwhile makes it anew.
began=$(date +%s.%N)
finish() { # RESULT
    touch -d "@$began" "$1"
    echo "$version" >"$1.kit"
}

# Answers whether the gate has proved all that these crates are made of, in a clone that had nothing kept (.ci/run), and their libraries are those that it left.
gate_proved() { # CRATE..
    local crate
    mapfile -t parts < <(parts_of "$@")
    is_fresh target/proved crates.txt "${parts[@]}" || return 1
    for crate; do
        [[ -f crates/$crate/out/rlib/$crate.rlib/format && ! -f crates/$crate/out/rlib/stamp ]] || return 1
    done
}

# Proves a crate over the libraries below it, which are proved, and compiles it as rt does, but for the clang, which keeps the module that it is asked to compile and then is the kit's. So what is kept
# is what was proved.
build_keeping() { # CRATE MODULE RESULT WORD..
    local crate=$1 module=$2 result=$3 folder root used below words status=0
    shift 3
    root=$PWD
    folder=$(mktemp -d)
    mkdir "$folder/bin"
    ln -s "$tools"/bin/* "$folder/bin"
    ln -s "$tools/lib" "$folder/lib"
    rm "$folder/bin/clang"
    printf '#!/bin/sh\nfor word; do case $word in *.bc) cp "$word" "%s" ;; esac; done\nexec "%s" "$@"\n' "$root/$module" "$tools/bin/clang" >"$folder/bin/clang"
    chmod +x "$folder/bin/clang"
    mapfile -t below < <(crates_of "$crate")
    words=(--extern "std=$kit/rlibs/std.rlib" -L "dependency=$kit/rlibs")
    for used in $(named_by "$crate"); do
        if [[ -d crates/$used ]]; then used=$used=$root/crates/$used/out/rlib/$used.rlib; else used=$used=$kit/rlibs/$used.rlib; fi
        words+=(--extern "$used")
    done
    for used in "${below[@]}"; do [[ $used == "$crate" ]] || words+=(-L "dependency=$root/crates/$used/out/rlib"); done
    if [[ -f crates/$crate/src/main.rt ]]; then words+=(src/main.rt); else words+=(src/lib.rt --crate-type staticlib); fi
    (cd "crates/$crate" && "$kit/bin/rattle" build --crate-name "$crate" "${words[@]}" --antt-project "$kit/rattle/logic/antt-project.json" --logic-built "$kit/logic_built" \
        --links "$crate=" --jobs 1 --toolchain "$folder" --backend llvm "$@" -o "$root/$result") || status=$?
    rm -r "$folder"
    return "$status"
}

# Prints the C compiler for a machine: the system's own, or Debian's cross compiler. Fails where there is none.
compiler_for() { # MACHINE
    if [[ $1 == "$(uname -m)" ]]; then command -v cc; else command -v "$1-linux-gnu-gcc"; fi
}

# Prints the emulator that runs a machine's static programs here, or nothing for this machine's own. Fails where there is none.
emulator_for() { # MACHINE
    [[ $1 != "$(uname -m)" ]] || return 0
    command -v "qemu-$1"
}

# Prints the first line of a module's text of which what docs/MACHINES.md says does not hold, and fails: one with a global that is not a constant of bytes, a type of structs, a cast of a
# pointer, a pointer read or written behind another value than a mark of one byte, assembly, or words for one machine. The addresses of two pointers may be told apart by std's own copying alone.
other_words() { # TEXT
    awk '
        /^define / { copies = /^define [a-z ]*@"core::ptr::copy_drop::copy_bits::</ }
        /^@static\.[0-9]+ = private unnamed_addr constant \[[0-9]+ x i8\] (c"[^"]*"|zeroinitializer), align [0-9]+$/ { next }
        / = ptrtoaddr ptr %[a-z0-9]+ to i64$/ && copies { next }
        / = load \{ i8, ptr \}, ptr %[a-z0-9]+, align [0-9]+$/ { next }
        /(load|store) \{[^}]*, ptr/ { print "line " NR ":" $0; found = 1; exit }
        /^attributes .*"(target|tune)-|^@|^%|ptrtoint|ptrtoaddr|inttoptr|addrspacecast| asm / { print "line " NR ":" $0; found = 1; exit }
        END { exit found }' "$1" | cut -c1-200
    [[ ${PIPESTATUS[0]} -eq 0 ]]
}

# Compiles the text of a module with the words of the kit's own compilations. -Wno-override-module: the text names no target, and is given one.
compile() { # TRIPLE TEXT OBJECT WORD..
    "$tools/bin/clang" --target="$1" --no-default-config -no-canonical-prefixes -fno-crash-diagnostics -ffunction-sections -fdata-sections -mllvm -trap-unreachable \
        -mllvm -no-trap-after-noreturn -mllvm -no-x86-call-frame-opt -mllvm -disable-machine-licm -mllvm -disable-postra-machine-licm -mllvm -sink-common-insts=false -Werror \
        -Wno-override-module -O3 "${@:4}" -c "$2" -o "$3"
}

# The same for Arm, with the words that the kit has for it beside those.
compile_arm() { # TEXT OBJECT
    compile aarch64-unknown-linux-gnu "$1" "$2" -fPIC -march=armv8-a -mllvm -aarch64-load-store-renaming=false
}

# Makes a WebAssembly module of the text of a module, with vectors of 16 bytes. Nothing is imported: memory is moved by WebAssembly's own instructions, and no loop becomes a call of a C library. An
# address has 4 bytes there, so it is widened where std's copying tells two apart; and a mark with a pointer behind it, which stands 8 bytes on in the text's memory, is read part by part. A merge takes over 65,536 bytes of stack, which is all that wasm-ld gives where nothing else is asked. The stack
# stands first, so that its overflow leaves the memory and traps. A caller's memory begins at __heap_base.
make_wasm() { # TEXT MODULE
    local folder
    folder=$(mktemp -d)
    sed -E -e 's/ = ptrtoaddr ptr (%[a-z0-9]+) to i64$/ = ptrtoint ptr \1 to i64/' \
        -e 's/^( *)(%[a-z0-9]+) = load \{ i8, ptr \}, ptr (%[a-z0-9]+), align [0-9]+$/\1\2.mark = load i8, ptr \3, align 1\n\1\2.place = getelementptr i8, ptr \3, i64 8\n\1\2.pointer = load ptr, ptr \2.place, align 1\n\1\2.marked = insertvalue { i8, ptr } poison, i8 \2.mark, 0\n\1\2 = insertvalue { i8, ptr } \2.marked, ptr \2.pointer, 1/' \
        -e '/^attributes .*"probe-stack"/s/"probe-stack"="[^"]*" "stack-probe-size"="[0-9]*"/"no-builtin-bcmp" "no-builtin-memcmp" "no-builtin-strlen"/' "$1" >"$folder/text.ll"
    compile wasm32-unknown-unknown "$folder/text.ll" "$folder/text.o" -msimd128 -mllvm -expand-div-rem-bits=64 -mllvm -expand-fp-convert-bits=64
    ln -s "$tools/bin/clang" "$folder/wasm-ld"
    "$folder/wasm-ld" --no-entry --export-dynamic --export=__heap_base --stack-first -z stack-size=1048576 --gc-sections --strip-all "$folder/text.o" -o "$2"
    rm -r "$folder"
}
