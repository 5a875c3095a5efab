# shellcheck shell=sh disable=SC2154,SC2034
# What is tried of an archive and of a package alike: the program, the examples, the modules, the manual and what shells complete;
# a part of packaging/check.

# runs PROGRAM [EMULATOR]: the program
# shellcheck disable=SC2086,SC1039
runs() {
  prints "$1 show" ${2:-} "$1" show "$work/symbol" << 'END'
load file 1 hunks 4 bytes
hunk 0 4 bytes any
  CODE 4 bytes
  SYMBOL 1
    0x00000000 _m
  END
END
  finds "$1 validate" ${2:-} "$1" validate "$work/findings" << 'END'
unit 0 hunk 0 offset 0x00000002 BadTarget
unit 0 hunk 0 offset 0x00000002 OutsideHunk
object file 1 units 2 findings
END
}
# compiles C COMPILER: the examples in C, which pkg-config finds the library for
compiles() {
  for name in symbols check load; do
    # shellcheck disable=SC2046
    $2 -std=c99 -O1 -Wall -Wextra -Werror "$1/$name.c" $(pkg-config --cflags --libs hunk) -o "$work/$name" ||
      lack "$1/$name.c does not compile"
  done
}
# calls WORD..: the examples in C, called by these words
calls() {
  says 'hunk 0 00000000 _m' symbols.c "$@" "$work/symbols" "$work/symbol"
  prints check.c "$@" "$work/check" "$work/findings" << 'END'
unit 0 hunk 0 offset 2: no such target
unit 0 hunk 0 offset 2: outside of the hunk
object file: 2 findings
END
  says 'hunk 0 at 00021000: 4E754E71' load.c "$@" "$work/load" "$work/symbol" 21000
}
# cmakes EXAMPLE WORD..: the programs in C++, for which cmake with these words finds the library
cmakes() {
  example=$1
  shift
  has "$example" cmake make c++ || return 0
  rm -rf "$work/build"
  { cmake -S "$example" -B "$work/build" -G 'Unix Makefiles' "$@" && cmake --build "$work/build"; } > "$work/log" 2>&1 ||
    lack "$example: $(tail -n 1 "$work/log")"
  for name in segments segments-static; do
    says '00021000 4 bytes: 4e 75 4e 71' "$example" "$work/build/$name" "$work/symbol" 21000
  done
}
# rust PACKAGE: a caller of the package, which finds the library beside it
rust() {
  has "$1" "$cargo" || return 0
  rm -rf "$work/caller"
  mkdir -p "$work/caller/src"
  cp "$1/examples/symbols.rs" "$work/caller/src/main.rs"
  cat > "$work/caller/Cargo.toml" << END
[package]
name = "caller"
version = "0.1.0"
edition = "2021"

[dependencies]
hunk = { path = "$1" }

[workspace]
END
  (cd "$work/caller" && "$cargo" build -q --offline) > "$work/log" 2>&1 || lack "$1: $(tail -n 1 "$work/log")"
  says 'hunk 0 00000000 _m' "$1" "$work/caller/target/debug/caller" "$work/symbol"
}
# module SCRIPT OPTION..: the example in JavaScript, in node with these options; the package picks the module that suits
module() {
  script=$1
  shift
  says "0 _m
4e754e71" "$script" node "$@" "$script" "$work/symbol"
}
# installs PACKAGE: the package for JavaScript, into an empty folder with no network, and its example and its second form there
installs() {
  has "$1 by npm" npm || return 0
  rm -rf "$work/project"
  mkdir "$work/project"
  echo '{ "private": true, "type": "module" }' > "$work/project/package.json"
  export npm_config_cache="$work/cache" npm_config_update_notifier=false
  (cd "$work/project" && npm install --offline --no-audit --no-fund --install-links "$1") > "$work/log" 2>&1 ||
    lack "$1: $(tail -n 1 "$work/log")"
  cp "$1/examples/symbols.js" "$work/project"
  module "$work/project/symbols.js"
  echo 'import { open } from "hunk-files/inline"; console.log((await open()).abi());' > "$work/project/inline.js"
  says 1 hunk-files/inline node "$work/project/inline.js"
}
# shares SHARE: what share/hunkinfo has that is the same for each machine
shares() {
  if has "$1/javascript" node; then
    module "$1/javascript/examples/symbols.js"
    memory64='process.exit(WebAssembly.validate(new Uint8Array([0, 97, 115, 109, 1, 0, 0, 0, 5, 3, 1, 4, 1])) ? 0 : 1)'
    if node --experimental-wasm-memory64 -e "$memory64" 2> /dev/null; then
      module "$1/javascript/examples/symbols.js" --experimental-wasm-memory64
    elif ! node -e "$memory64"; then
      echo 'packaging/check: hunk.wasm was not tried, as node has no 64-bit memories'
    fi
    installs "$1/javascript"
  fi
  for name in hunk hunk32; do
    python3 - "$1/page/index.html" "$1/javascript/$name.wasm" << 'END' || lack "the page has another $name.wasm"
import base64, pathlib, re, sys, zlib
page, module = (pathlib.Path(name).read_bytes() for name in sys.argv[1:])
packed = re.findall(rb"[A-Za-z0-9+/]{1000,}={0,2}", page)
sys.exit(module not in [zlib.decompress(base64.b64decode(it)) for it in packed])
END
    pass
  done
}
# surveys WORD..: the command `hunk` of Python, called by these words
surveys() {
  has 'hunk survey' python3 || return 0
  mkdir -p "$work/folder"
  cp "$work/symbol" "$work/findings" "$work/folder"
  printf 'findings\tBadTarget\t-\t0\t%s/findings\nload\t-\t-\t0\t%s/symbol\n' "$work/folder" "$work/folder" > "$work/rows"
  prints 'hunk survey' "$@" survey "$work/folder" < "$work/rows"
}
# documents MAGIC MANUAL..: the lines for file, and the manuals
documents() {
  magic=$1
  shift
  for manual in "$@"; do
    if has "$manual" man; then
      man --warnings -E UTF-8 -l "$manual" > "$work/said" 2> "$work/complained" || lack "$manual: man fails"
      [ ! -s "$work/complained" ] || lack "$manual: $(head -n 1 "$work/complained")"
      grep -q '^SEE ALSO' "$work/said" || lack "$manual has no end"
      pass
    fi
  done
  if has "$magic" file; then
    says 'AmigaDOS hunk load file, 1 hunk' "$magic" file -b -m "$magic" "$work/symbol"
  fi
}
# completes PROGRAM LINES SHARE FOLDER: that bash and fish complete its command `re` to these, in order, by what is in SHARE, and
# that zsh finds what is in FOLDER
# shellcheck disable=SC2016
completes() {
  if has "$3/bash-completion" bash; then
    says "$2" "$3/bash-completion" bash -c \
      '. "$2"; COMP_WORDS=("$1" re) COMP_CWORD=1; "_$1"; printf "%s\n" "${COMPREPLY[@]}" | sort' \
      offer "$1" "$3/bash-completion/completions/$1"
  fi
  if has "$3/fish" fish; then
    says "$2" "$3/fish" fish --no-config -c 'source $argv[2]; complete -C "$argv[1] re" | string replace -r "\t.*" "" | sort' \
      "$1" "$3/fish/vendor_completions.d/$1.fish"
  fi
  if has "$4" zsh; then
    says "_$1" "$4" zsh -f -c 'fpath=($2 $fpath); autoload -Uz compinit; compinit -D -u; echo $_comps[$1]' offer "$1" "$4"
  fi
}
# clean FOLDER: that it says what is trusted, and nothing in it is open for others to write, or names a folder that a build or a
# kit stands in
clean() {
  find "$1" -name 'TRUST*' | grep -q . || lack "$1 does not say what is trusted"
  [ -z "$(find "$1" -perm /022 ! -type l)" ] || lack "others may write to $(find "$1" -perm /022 ! -type l | head -n 1)"
  for path in "$top" $kit; do
    ! grep -rqF -- "$path/" "$1" || lack "$(grep -rlF -- "$path/" "$1" | head -n 1) names $path"
  done
  pass
}
# inputs VECTORS: the files that all are tried on, of the conformance suite
inputs() {
  for row in 18/symbol/load 29/two-findings/objects; do
    name=${row#*/}
    awk -F '\t' -v example="${row%%/*}" -v name="${name%/*}" '$1 == example && $2 == name { print $3 }' \
      "$1/${row##*/}.tsv" | xxd -r -p > "$work/$(echo "${name%/*}" | sed 's/two-//')"
  done
}
# of MACHINE: how Debian calls a machine with Linux, and its compilers, and pip; and the emulator of it
of() {
  case $1 in
    x86_64) architecture=amd64 triplet=x86_64-linux-gnu pip=x86_64 ;;
    aarch64) architecture=arm64 triplet=aarch64-linux-gnu pip=aarch64 emulator=qemu-aarch64 ;;
    armv7) architecture=armhf triplet=arm-linux-gnueabihf pip=armv7l emulator=qemu-arm ;;
    riscv64) architecture=riscv64 triplet=riscv64-linux-gnu pip=riscv64 emulator=qemu-riscv64 ;;
  esac
  wheel=$(echo "$made"/hunk-*_"$pip.whl")
}
