# What the scripts of tools/ and bench/ share; they source it after they have set `top` to the repository's top.

# Ends the script where one of these programs is missing.
need() {
    for tool in "$@"; do
        command -v "$tool" >/dev/null || { echo "skipped: no $tool"; exit 0; }
    done
}

# Sets `driver` to the proved program of a crate, and proves and builds it where it is missing.
use_driver() {
    driver=$top/crates/$1/out/$1
    [ -x "$driver" ] || { need rt; (cd "$top/crates/$1" && rt run <stdin >/dev/null); }
}

# Sets `work` to an empty folder that goes with the script.
use_folder() {
    work=$(mktemp -d)
    trap 'rm -rf "$work"' EXIT
}

# Runs the Python script on standard input, which may import bench/timing.py, with the proved program of a crate, an empty
# folder and the words behind.
run_timed() {
    need python3
    use_driver "$1"
    use_folder
    shift
    PYTHONDONTWRITEBYTECODE=1 PYTHONPATH=$top/bench python3 - "$driver" "$work" "$@"
}

# Sets `file` to the executable given, or to a statically linked C program that is compiled in the folder.
use_executable() {
    file=$1
    if [ -z "$file" ]; then
        need gcc
        file=$work/program
        printf '#include <stdio.h>\nint main(void) { return puts("hello") < 0; }\n' >"$work/program.c"
        gcc -O2 -static -no-pie -o "$file" "$work/program.c"
    fi
}
