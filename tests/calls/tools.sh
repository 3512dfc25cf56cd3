# What the scripts over the exported calls share; sourced by them, with root set to the repository's folder. The
# archive is for x86-64: elsewhere its programs are compiled by a cross compiler and run by qemu.
#
# Afterwards: archive is the archive, emulator how its programs are run (nothing on x86-64), built the folder for them.

complain() { echo "calls: $*" >&2; exit 1; }

# need PACKAGE..: installs Debian packages.
need() {
    echo "calls: installing $*"
    { apt-get update -q && apt-get install -q -y "$@"; } >&2 || complain "$* could not be installed, and nothing runs without"
}

if [ "$(uname -m)" = x86_64 ]; then
    compiler=gcc
    linking=()
    emulator=()
    command -v gcc >/dev/null || need gcc libc6-dev
else
    compiler=x86_64-linux-gnu-gcc
    linking=(-static)
    emulator=(qemu-x86_64)
    { command -v "$compiler" && command -v "${emulator[0]}"; } >/dev/null || need gcc-x86-64-linux-gnu qemu-user
fi

built=$root/target/calls
mkdir -p "$built"

# The archive: the one that NIDRAGHERA_ARCHIVE names, or the proved one, made again when a crate has changed since.
archive=${NIDRAGHERA_ARCHIVE:-$root/crates/calls/out/libcalls.a}
if [ -n "${NIDRAGHERA_ARCHIVE:-}" ]; then
    echo "calls: not the proved archive, but $archive"
elif [ ! -f "$archive" ] || [ -n "$(find "$root/crates" "$root/crates.txt" -name out -prune -o -type f -newer "$archive" -print -quit)" ]; then
    command -v rt >/dev/null || complain "the archive has to be built, and the toolchain's command rt is not on the path"
    (cd "$root/crates/calls" && rt lib) >"$built/archive.log" 2>&1 ||
        { tail -n 20 "$built/archive.log" >&2; complain "rt lib fails in crates/calls"; }
fi
[ -f "$archive" ] || complain "there is no archive $archive"
names=$("${compiler%gcc}nm" "$archive" 2>/dev/null) || complain "$archive is no archive"
for call in chase_open chase_step chase_run chase_take; do
    grep -q " T $call\$" <<<"$names" || complain "the archive $archive has no $call"
done

# compile NAME WORDS..: a program from sources, linked with the archive.
compile() {
    local name=$1
    shift
    "$compiler" -std=c11 -O2 -g "${linking[@]}" -Wall -Wextra -Werror -I "$root/include" "$@" "$archive" -o "$built/$name" ||
        complain "$name does not compile"
}

# find_functions PROGRAM: where the archive's functions stand in a program: first is the address of the first in hex
# digits, last the one behind them as a number.
find_functions() {
    local functions at size kind name
    functions=$(awk 'NF > 1 && $(NF - 1) ~ /^[tT]$/ { print $NF }' <<<"$names")
    first=""
    last=0
    while read -r at size kind name; do
        grep -qxF "$name" <<<"$functions" || continue
        [[ -n $first && $((16#$at)) -ge $((16#$first)) ]] || first=$at
        [[ $((16#$at + 16#$size)) -le $last ]] || last=$((16#$at + 16#$size))
    done < <("${compiler%gcc}nm" -S --defined-only "$1" | awk 'NF == 4 && $3 ~ /^[tT]$/')
    [ -n "$first" ] || complain "$1 has no function of the archive"
}

# find_misdeeds COMMAND..: for each misdeed that MISDEED can name (misdeeds.c), the command fails and says what it found.
find_misdeeds() {
    local buffer
    misdeeds=0
    for buffer in book pool out; do
        find_misdeed "reads-before-$buffer" "touches $buffer at -1," "$@"
        find_misdeed "reads-behind-$buffer" "touches $buffer at [0-9]" "$@"
        find_misdeed "writes-before-$buffer" "touches $buffer at -1,\|writes before $buffer" "$@"
        find_misdeed "writes-behind-$buffer" "touches $buffer at [0-9]\|writes behind $buffer" "$@"
    done
    find_misdeed writes-book "touches book at 0," "$@"
    find_misdeed opens-half "open .* = 0\|reference 0, engine 0\|listing\|a run of no steps answers 13" "$@"
    find_misdeed writes-when-refused "step .* = 16\|reference 16, engine 16\|answers 16 and changes" "$@"
    find_misdeed invents-steps "listing\|run .* = 14\|reference 14 .*engine 14\|chase_run answers 14\|again by chase_run" "$@"
    find_misdeed writes-later-bytes "take .* = 0\|reference 0, engine 0\|writes later bytes" "$@"
    find_misdeed keeps-the-slot "take .* = 0\|reference 0, engine 0\|a run of no steps answers 13" "$@"
    echo "misdeeds added to the calls $misdeeds, each found"
}

# find_misdeed MISDEED WORDS COMMAND..: the command fails and says WORDS.
find_misdeed() {
    local misdeed=$1 words=$2 told
    shift 2
    if told=$(MISDEED=$misdeed "$@" 2>&1); then
        complain "the misdeed $misdeed is not found"
    fi
    grep -q "$words" <<<"$told" ||
        { printf '%s\n' "$told" >&2; complain "the misdeed $misdeed is found, but nothing says: $words"; }
    misdeeds=$((misdeeds + 1))
}

recorded=("$root"/tests/recorded/{listings,refusals,pools,unsound}.txt)
wrapped=-Wl,--wrap=chase_open,--wrap=chase_step,--wrap=chase_run,--wrap=chase_take
