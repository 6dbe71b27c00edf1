# Sourced by the benches that measure `ipmd`: sets `program`, the absolute path of what `IPMD` names, or else of the program that
# `./build` made of these sources, and goes to the top of the repository. It ends in 2 where there is neither.
program=${IPMD:+$(realpath -e "$IPMD")}
. "$(dirname "${BASH_SOURCE[0]}")/../tools/kit.sh"
cd "$top"
if [ -z "$program" ] && ! program=$(proved_program); then
    echo "no program that was proved of these sources: ./build makes it, or name one by IPMD" >&2
    exit 2
fi
