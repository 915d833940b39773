# shellcheck shell=bash disable=SC2016
# Compilers made from scripts, for bin/test-builds and bin/compare-caches.

# Makes a program at that path that isn't a script itself, and runs the script that comes on standard input.
stand_in() {
    cat >"$1.script"
    printf '#include <unistd.h>\nint main(int n, char **v) {\n    char *line[n + 2];\n    line[0] = "sh";\n    line[1] = "%s";\n    for (int i = 1; i <= n; i++) line[i + 1] = v[i];\n    execv("/bin/sh", line);\n    return 127;\n}\n' \
        "$(realpath "$1.script")" | gcc -x c - -o "$1.new"
    mv "$1.new" "$1"
}
