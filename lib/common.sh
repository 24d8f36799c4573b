# shellcheck shell=sh
# What the scripts that build, install and pack smap have in common. It is read by them and not run. `root` is the folder at
# the top.

# The kit that everything is proved with, as `rt version` prints it.
wanted_kit='rattle-kit-13f logic dac8208d650f15bf'

# The version, as `smap --version` has it.
# shellcheck disable=SC2034
version=$(sed -n 's/^const VERSION: .* = "\(.*\)";$/\1/p' "${root:?}/crates/smap_arguments/src/line.rt")

# How C of ours is compiled and linked, so that a mistake in it ends the process: a stack or a block that is overrun, or a write to
# the table of calls.
# shellcheck disable=SC2034
guarded_code='-O2 -fstack-protector-strong -fstack-clash-protection -U_FORTIFY_SOURCE -D_FORTIFY_SOURCE=3'
# shellcheck disable=SC2034
guarded_link='-Wl,-z,relro,-z,now'

# How a shared object is linked that serves each C library, the GNU one and musl: it names none, and calls that of the process that
# loads it.
# shellcheck disable=SC2034
library_of_process='-nodefaultlibs -lgcc'

# The linker of the kit, which links for each processor. It gives the same bytes on each machine.
kit_linker() { printf '%s/toolchain/bin/ld.lld' "$(dirname -- "$(rt doc)")"; }

# link_program OBJECT SYSTEM FILE: links the object of the program, as the kit compiles it, with what it stands on, as
# pack/system/build makes it. The program that this gives is static, and may lie at any address.
link_program() {
    "$(kit_linker)" -static -pie --no-dynamic-linker -z text -z relro -z now --gc-sections --strip-all --wrap=main -o "$3" "$1" "$2"
}

# Where the C library musl is for a processor, as Debian has it; and its sum.
musl_of() { printf '/usr/lib/%s-linux-musl' "$1"; }
sum_of_musl() { sha256sum "$(musl_of "$1")/libc.a" 2>/dev/null | sed 's/ .*//'; }

# fail STATUS LINE..: ends with this status, and says why.
fail() {
    status=$1
    shift
    printf 'smap: %s\n' "$@" >&2
    exit "$status"
}

# quietly FILE COMMAND..: runs it, and says what it said, which the file takes, only where it fails.
quietly() {
    said=$1
    shift
    "$@" >"$said" 2>&1 </dev/null || {
        cat -- "$said" >&2
        exit 1
    }
}

# Ends with status 127 where there is no rt.
want_rt() {
    command -v rt >/dev/null 2>&1 || fail 127 \
        'there is no `rt` on the PATH, with which smap is proved and built from these sources' \
        'it is the command of the Rattle kit; `rt version` of the one that is wanted prints' \
        "    $wanted_kit" \
        'without it: dist/ of the last commit that changed it has packages, and ./smap there runs at once (docs/PACKAGES.md)'
}

# Answers a script's options, of which --help and -h are all: its head says what it does. Status 2 after another one.
answer_options() {
    case ${1:-} in
    -h | --help) sed -n '2,/^set/s/^# \{0,1\}//p' "$0" && exit ;;
    -*) sed -n '2,/^set/s/^# \{0,1\}//p' "$0" >&2 && exit 2 ;;
    esac
}

# set_modes PATH..: all may read what lies there, and its owner alone may write: folders and programs have 755, other files 644.
set_modes() {
    find "$@" \( -type d -o -type f -perm -u+x \) -exec chmod 755 {} +
    find "$@" -type f ! -perm -u+x -exec chmod 644 {} +
}

# lines_of CRATE..: the lines of crates.txt of these crates and of all below them, each once, behind those that it stands on.
lines_of() {
    awk -v wanted="$*" '
        function visit(name, names, count, i) {
            if (!(name in line) || name in seen) return
            seen[name]
            count = split(below[name], names, " ")
            for (i = 1; i <= count; i++) visit(names[i])
            print line[name]
        }
        /^[a-z]/ {
            name = $1
            sub(/:$/, "", name)
            line[name] = below[name] = $0
            sub(/^[^:]*:/, "", below[name])
        }
        END {
            many = split(wanted, all, " ")
            for (at = 1; at <= many; at++) visit(all[at])
        }
    ' "$root/crates.txt"
}

# crates_of CRATE..: the names of these crates and of all below them, in the same order.
crates_of() { lines_of "$@" | sed 's/[ :].*//'; }

# is_newer FILE FOLDER..: the file is there, and neither crates.txt nor what lies in these folders is newer.
is_newer() {
    file=$1
    shift
    [ -e "$file" ] && [ -z "$(find "$root/crates.txt" "$@" -newer "$file" 2>/dev/null | head -n 1)" ]
}

# Whether the program was built here, and is newer than all that it is proved and built from.
is_built() {
    # shellcheck disable=SC2046
    (cd -- "$root/crates" && is_newer "$root/crates/smap_cli/out/smap_cli" $(crates_of smap_cli | sed 's|.*|&/src &/specs &/proofs|'))
}

# The crates at the top of what is made: `program`, or `packages` for all programs and libraries of the packages.
tops_of() {
    case $1 in
    program) printf 'smap_cli' ;;
    packages) printf 'smap_cli smap_c' ;;
    esac
}

# sources_of program, sources_of packages: the files that it is made of, in the order of their names. Proofs, tests, pages,
# examples and the crate for Rust change no byte of it.
sources_of() {
    if [ "$1" = packages ]; then others='completions install lib pack page smap-page'; else others=''; fi
    # shellcheck disable=SC2046,SC2086
    (cd -- "$root" && find $(crates_of $(tops_of "$1") | sed 's|.*|crates/&/src|') $others -type f \
        ! -name '*.node' ! -name '*.so' ! -name '*.pyc' ! -path 'lib/rust/*' | LC_ALL=C sort)
}

# The sum of these sources: one sha256 over the names and the bytes of the files, and over the lines of crates.txt.
sum_of() {
    # shellcheck disable=SC2046
    {
        sources_of "$1" | (cd -- "$root" && xargs sha256sum --)
        lines_of $(tops_of "$1") | LC_ALL=C sort
    } | sha256sum | sed 's/ .*//'
}
