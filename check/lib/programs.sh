# The programs that a check runs, for scripts of the shell: one form of argument for all checks,
# --norm PROGRAM, --normaudit PROGRAM and --normview PROGRAM. A script sources this file after its
# head, whose last comment lines are its usage, and has then `top`, `norm`, `normaudit`, `normview`
# and the other words in `others`.
# shellcheck shell=bash disable=SC2034
top=$(cd "$(dirname "${BASH_SOURCE[0]}")/../.." && pwd) || exit 2
norm=$top/crates/norm/out/norm
normaudit=$top/crates/normaudit/out/normaudit
normview=$top/crates/normview/out/normview
others=()
while [ $# -gt 0 ]; do
    case $1 in
        --norm | --normaudit | --normview)
            [ $# -ge 2 ] || { echo "$1 wants a program" >&2; exit 2; }
            printf -v "${1#--}" %s "$2"
            shift 2
            ;;
        --norm=* | --normaudit=* | --normview=*)
            word=${1#--}
            printf -v "${word%%=*}" %s "${word#*=}"
            shift
            ;;
        --help | -h) sed -n '2,/^[^#]/s/^#  *//p' "$0"; exit 0 ;;
        -*) echo "$0 has no option $1" >&2; exit 2 ;;
        *) others+=("$1"); shift ;;
    esac
done

# The running script, named from check/.
script=$(realpath "$0")
script=${script#"$(realpath "$top")"/check/}

# skip NEEDS [PART]: prints that the check, or this part of it, is not run.
skip() { echo "$script${2:+, $2}: not run, since it needs: $1"; }

# found PROGRAM: its absolute path; where it is not there the script ends with 2.
found() {
    [ -x "$1" ] && realpath "$1" && return
    echo "$1 is not there: build it as README.md says, or name one by --norm, --normaudit or --normview" >&2
    exit 2
}
