# How this machine builds and runs programs for x86-64, the one processor that rt compiles programs and the archive for. Sourced.
# On x86-64 everything is the machine's own. Elsewhere, should rt run there, its programs run by Debian's emulator, and programs over the
# archive are compiled by Debian's cross compilers and run by that emulator too.

CC=cc CXX=c++ NM=nm OBJDUMP=objdump
RUN=                          # starts a program over the archive; nothing where the machine can start it itself
RELEASE=release               # where cargo puts such a program, below CARGO_TARGET_DIR
SANITIZE=address,undefined    # the sanitizers that can run here
emulated=
[[ $(uname -m) == x86_64 ]] || emulated=yes

# a file that starts the program with these words before it: the program itself, where there are none
starter() { # PROGRAM [WORD...]
  if (($# == 1)); then echo "$1"; return; fi
  printf '#!/usr/bin/env bash\nexec %s "$@"\n' "$(printf '%q ' "${@:2}" "$1")" >"$1.run"
  chmod +x "$1.run"
  echo "$1.run"
}

# whether a file is there, and nothing that the crates of a checkout are made of is newer
is_fresh() { # FILE [CHECKOUT]
  local top=${2:-.}
  [[ -f $1 && -z $(find "$top/crates.txt" "$top"/crates/*/{src,specs,proofs} -newer "$1" -print -quit 2>/dev/null) ]]
}

# proves and builds the program of a crate, and all crates below it, with rt's own lines on the way. rt builds a program by running it,
# here on no input; it stays as crates/NAME/out/NAME, which rt ci leaves too
build_program() { # NAME
  local said
  ! is_fresh "crates/$1/out/$1" || return 0
  said=$(mktemp)
  (cd "crates/$1" && rt run </dev/null 2>&1 >/dev/null) | tee "$said" | grep --line-buffered '^rt:' || true
  grep -q "^rt: running " "$said" || { cat "$said" >&2; rm "$said"; return 1; }
  rm "$said"
  touch "crates/$1/out/$1"
}

# what starts a program that is built: the file itself, or FILE.run
rt_program() { starter "$PWD/crates/$1/out/$1" ${emulated:+"$(command -v qemu-x86_64)"}; } # NAME

# proves and builds the archive of a checkout, and all crates below it, as crates/exports/out/libexports.a; what rt says goes into a file
ARCHIVE=crates/exports/out/libexports.a
build_archive() { (cd "$1/crates/exports" && rt lib) >"$2" 2>&1; } # CHECKOUT FILE

# what starts a program over the archive: the file itself, or FILE.run
archive_program() { starter "$1" $RUN; } # FILE

# runs a command with cargo as it is on this machine, for Rust that has nothing to do with the archive
native() { if [[ $emulated ]]; then env -u CARGO_BUILD_TARGET -u RUSTC -u RUSTDOC "$@"; else "$@"; fi; }

# installs those of the packages that are not there, where this may; says what is lacking, where it may not
want_packages() {
  local package lacking=() apt=(env DEBIAN_FRONTEND=noninteractive apt-get -qqy -o DPkg::Lock::Timeout=300)
  for package; do
    [[ $(dpkg-query -W -f '${db:Status-Status}' "$package" 2>/dev/null) == installed ]] || lacking+=("$package")
  done
  ((${#lacking[@]})) || return 0
  if [[ $(id -u) != 0 ]] || ! command -v apt-get >/dev/null; then
    echo "to build for x86-64 on $(uname -m), this machine lacks Debian's ${lacking[*]}" >&2
    return 1
  fi
  echo "installing, to build for x86-64 on $(uname -m): ${lacking[*]}" >&2
  # nothing that is here is removed for it
  dpkg --add-architecture amd64 && "${apt[@]}" update >&2 &&
    "${apt[@]}" install --no-install-recommends --no-remove "${lacking[@]}" >/dev/null
}

# whether this rustc has the standard library for x86-64
has_std() { compgen -G "$("$1" --print target-libdir --target x86_64-unknown-linux-gnu 2>/dev/null)/libstd-*.rlib" >/dev/null; }

# makes CC, CXX, NM, OBJDUMP, RUN and cargo build and run what links the archive; installs what that lacks
for_the_archive() {
  [[ $emulated ]] || return 0
  # programs are loaded with amd64's own libraries: the loader would mix those of the cross compiler's folder with them, and fail
  local packages=(gcc-x86-64-linux-gnu g++-x86-64-linux-gnu qemu-user libc6:amd64 libstdc++6:amd64 libubsan1:amd64)
  # where the machine's rustc has no standard library for x86-64, Debian's has one of its own version
  has_std rustc || has_std /usr/bin/rustc || packages+=(rustc-web libstd-rust-web-dev:amd64)
  want_packages "${packages[@]}" || return
  CC=x86_64-linux-gnu-gcc CXX=x86_64-linux-gnu-g++ NM=x86_64-linux-gnu-nm OBJDUMP=x86_64-linux-gnu-objdump
  RUN=$(command -v qemu-x86_64) || return
  RELEASE=x86_64-unknown-linux-gnu/release
  SANITIZE=undefined # the address sanitizer maps more than the emulator can hold
  has_std rustc || export RUSTC=/usr/bin/rustc RUSTDOC=/usr/bin/rustdoc
  export CC RUN CARGO_BUILD_TARGET=x86_64-unknown-linux-gnu
  export CARGO_TARGET_X86_64_UNKNOWN_LINUX_GNU_LINKER=$CC CARGO_TARGET_X86_64_UNKNOWN_LINUX_GNU_RUNNER=$RUN
}
