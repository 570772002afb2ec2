# What the scripts of this folder share. Sourced, after the script has gone to the repository's root.
root=$PWD

# The sources of the test of stores without its machine's decoder, of that of calls, and of the wrong units for either.
inputs_sources=(box/batches.c box/call.c box/fields.c box/inputs.c)
stores_sources=(box/stores.c box/writers.c box/checks.c box/watch.c "${inputs_sources[@]}")
calls_sources=(box/calls.c "${inputs_sources[@]}")
wrong_sources=(box/wrong.c box/wrong_writers.c box/wrong_checks.c)

stop() { # why
    printf '%s: failed: %s\n' "$(basename "$0")" "$1" >&2
    exit 1
}

need() { # tools
    local tool
    for tool in "$@"; do
        command -v "$tool" >/dev/null 2>&1 || stop "the tool $tool is not there"
    done
}

# The machine that an archive or object is for, as uname -m names it.
machine_of() { # file
    case $(readelf -h "$1" 2>/dev/null | grep -m 1 'Machine:') in
    *X86-64*) echo x86_64 ;;
    *AArch64*) echo aarch64 ;;
    *) stop "$1 is for neither x86-64 nor AArch64" ;;
    esac
}

# The name of a binary tool for a machine: the machine's own, or the cross one.
tool_for() { # machine, tool
    if [ "$1" = "$(uname -m)" ]; then echo "$2"; else echo "$1-linux-gnu-$2"; fi
}

# Compiles C for a machine. Not linked to shared libraries where it is another machine's, so that it runs with none of them here.
compile_for() { # machine, arguments of the compiler
    local machine=$1 compiler
    local -a how=(-std=gnu11 -Wall -Wextra -Werror -O2 -Iinclude -Ibox)
    shift
    if [ "$machine" = "$(uname -m)" ]; then
        compiler=cc
    else
        compiler=$machine-linux-gnu-gcc
        how+=(-static)
    fi
    need "$compiler"
    "$compiler" "${how[@]}" "$@"
}

run_on() { # machine, program and its arguments
    local machine=$1
    shift
    if [ "$machine" = "$(uname -m)" ]; then "$@"; else "qemu-$machine" "$@"; fi
}

# The exported calls, in the header's order.
calls() {
    grep -o '\<tahvenno_[a-z_]*(' include/tahvenno.h | tr -d '('
}

# The version, as the header has it.
version() {
    sed -n 's/^#define TAHVENNO_VERSION "\(.*\)"$/\1/p' include/tahvenno.h
}

# What an archive wants of other libraries; nothing, if all is well.
wanted_by() { # archive
    nm -u "$1" | grep -v -e '^$' -e ':$'
}

# The kit's folder: the one above the folder where rt really is.
kit_folder() {
    local script
    script=$(readlink -f "$(command -v rt)") || stop "rt leads nowhere"
    dirname "$(dirname "$script")"
}

# The kit's compiler, which compiles for both machines.
kit_clang() {
    local clang
    clang=$(kit_folder)/toolchain/bin/clang
    [ -x "$clang" ] || stop "the kit has no clang"
    echo "$clang"
}

# Proves a program and what it rests on, and builds it. rt does so when it runs it, here on nothing.
build_program() { # name
    local told
    [ -f "$root/crates/$1/src/main.rt" ] || stop "there is no program $1"
    told=$(cd "$root/crates/$1" && rt run </dev/null 2>&1 >/dev/null)
    grep -q "^rt: running out/$1;" <<<"$told" || { printf '%s\n' "$told" >&2; stop "$1 is not proved"; }
}

# Runs a proved program, once it is built, in whichever folder the script is then.
run_program() { # name, arguments
    "$root/crates/$1/out/$1" "${@:2}"
}
