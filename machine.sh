# shellcheck shell=bash disable=SC2034
# The machine, and what to use on it for x86-64 code, which the Rattle kit's programs and archives are on every processor. For the scripts to source.
#
#   $emulated                   yes where an emulator runs x86-64 programs, so that their times mean nothing; no on x86-64.
#                               RIPEMD_EMULATE=yes takes the emulator's way there too, to try it
#   needs TOOL ..               whether each of these is at hand: cc c++ binutils rustc cargo; emulator, for the kit's programs; qemu-user, for all
#                               others. Where programs are emulated, root has what is missing installed. If something still is, $missing says
#                               in one line what to install
#   $cc $nm $objdump "${cxx[@]}" "${rustc[@]}"
#                               the tools that make and read x86-64 code
#   "${run[@]}" PROGRAM         runs an x86-64 program, after 'needs emulator' or 'needs qemu-user'
#   cargo_target                has cargo make and run x86-64 programs
#   install PACKAGE ..          installs Debian's packages where this is root
#   kit_folder                  prints where the kit is

case $(uname -m),${RIPEMD_EMULATE:-no} in
    x86_64,no) emulated=no ;;
    *) emulated=yes ;;
esac

run=()
declare -A packages
if [ "$emulated" = no ]; then
    cc=cc cxx=(c++) nm=nm objdump=objdump rustc=(rustc)
    packages=([cc]=gcc [c++]=g++ [binutils]=binutils [rustc]=rustc-web [cargo]=cargo-web)
else
    target=x86_64-unknown-linux-gnu
    cc=x86_64-linux-gnu-gcc nm=x86_64-linux-gnu-nm objdump=x86_64-linux-gnu-objdump
    # The kit has no C++ library to run a program with.
    cxx=(x86_64-linux-gnu-g++ -static-libstdc++ -static-libgcc)
    packages=([cc]="gcc-x86-64-linux-gnu libc6-dev-amd64-cross" [c++]=g++-x86-64-linux-gnu [binutils]=binutils-x86-64-linux-gnu
        [rustc]="rustc-web libstd-rust-web-dev:amd64" [cargo]=cargo-web [emulator]="qemu-user libc6-amd64-cross"
        [qemu-user]="qemu-user libc6-amd64-cross")
fi

kit_folder() {
    local rt
    rt=$(readlink -f "$(command -v rt)")
    echo "${RATTLE_HOME:-${rt%/bin/rt}}"
}

kit_tools() {
    echo "$(kit_folder)/on/$(uname -m)/toolchain"
}

# CANDIDATE ..: has 'run' be the first that is there, with a loader and the C library of the loader's folder: the kit's, as rt itself runs programs, or
# else Debian's. A machine may have several of each, and they don't mix.
find_emulator() {
    local candidate emulator= folder
    for candidate; do
        emulator=$(command -v "$candidate") && break
    done
    for folder in "$(kit_tools)/lib" /usr/x86_64-linux-gnu/lib; do
        if [ -n "$emulator" ] && [ -f "$folder/ld-linux-x86-64.so.2" ]; then
            run=("$emulator" "$folder/ld-linux-x86-64.so.2" --library-path "$folder")
            return
        fi
    done
    return 1
}

# A rustc that has the standard library for x86-64: often not the first one, but Debian's.
find_rustc() {
    local candidate libraries
    for candidate in "$(command -v rustc)" /usr/bin/rustc; do
        libraries=$("$candidate" --print target-libdir --target "$target" 2>/dev/null) || continue
        if compgen -G "$libraries/libstd-*.rlib" >/dev/null; then
            rustc=("$candidate" --target "$target" -C "linker=$cc")
            return
        fi
    done
    return 1
}

has() { # TOOL
    case $emulated,$1 in
        no,emulator | no,qemu-user) ;;
        yes,emulator) find_emulator "$(kit_tools)/bin/qemu-x86_64" qemu-x86_64 ;;
        yes,qemu-user) find_emulator qemu-x86_64 ;;
        yes,rustc) find_rustc ;;
        *,cc) command -v "$cc" ;;
        *,c++) command -v "${cxx[0]}" ;;
        *,binutils) command -v "$nm" && command -v "$objdump" ;;
        *) command -v "$1" ;;
    esac >/dev/null
}

lack() { # TOOL ..: names those that are not at hand in 'lacking', and their packages in 'wanted'
    local tool
    lacking=()
    wanted=()
    for tool; do
        has "$tool" && continue
        lacking+=("$tool")
        # shellcheck disable=SC2206
        wanted+=(${packages[$tool]})
    done
    [ ${#lacking[@]} -gt 0 ]
}

needs() { # TOOL ..
    lack "$@" || return 0
    if [ "$emulated" = yes ] && install "${wanted[@]}"; then
        lack "$@" || return 0
    fi
    case ${wanted[*]} in
        *:amd64*) missing="Debian, after dpkg --add-architecture amd64" ;;
        *) missing=Debian ;;
    esac
    missing="no ${lacking[*]} for x86-64 code ($missing: ${wanted[*]})"
    return 1
}

install() { # PACKAGE ..
    { [ "$(id -u)" = 0 ] && command -v apt-get >/dev/null; } || return
    echo "machine: installing Debian's $*" >&2
    {
        case $* in *:amd64*) dpkg --add-architecture amd64 ;; esac
        apt-get update
        DEBIAN_FRONTEND=noninteractive apt-get install -y --no-install-recommends "$@"
    } </dev/null >/dev/null 2>&1
}

cargo_target() {
    [ "$emulated" = yes ] || return 0
    export RUSTC=${rustc[0]} RUSTDOC=${rustc[0]%rustc}rustdoc CARGO_BUILD_TARGET=$target
    export CARGO_TARGET_X86_64_UNKNOWN_LINUX_GNU_LINKER=$cc CARGO_TARGET_X86_64_UNKNOWN_LINUX_GNU_RUNNER="${run[*]}"
}
