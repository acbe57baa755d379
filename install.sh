#!/bin/sh
# Copies the program, its help, its man page and its completion: PREFIX=/usr/local ./install.sh
#
# It installs PREFIX/bin/ptu, PREFIX/bin/ptu-help, which prints the commands and the statuses (the program itself has no
# options), the man page ptu(1), and the completion for bash.
# The program is the one that ./ptu runs: as a rule that of bin/ for this machine's processor. LEVEL=x86-64-v2 asks for one
# that runs on nearly every x86-64 machine of the last fifteen years: take it for several machines. The program stands
# alone: one file that needs the C library and nothing of this folder.

set -eu
root=$(cd -- "$(dirname -- "$0")" && pwd -P)
prefix=${PREFIX:-/usr/local}
program=$(PTU_LEVEL=${LEVEL:-${PTU_LEVEL:-}} "$root/ptu" --path)

# Each file is put into place in one step, so a program that runs meanwhile is no hindrance, and none is ever half there.
put() { # MODE FILE FOLDER NAME
    mkdir -p -- "$3"
    cat -- "$2" >"$3/.$4.new"
    chmod "$1" -- "$3/.$4.new"
    mv -f -- "$3/.$4.new" "$3/$4"
}

put 755 "$program" "$prefix/bin" ptu
{ printf '#!/bin/sh\ncat <<\\END\n' && cat -- "$root/docs/help.txt" && echo END; } | put 755 - "$prefix/bin" ptu-help
put 644 "$root/docs/ptu.1" "$prefix/share/man/man1" ptu.1
put 644 "$root/examples/ptu.bash" "$prefix/share/bash-completion/completions" ptu
printf 'installed %s in %s\n' "$program" "$prefix"
