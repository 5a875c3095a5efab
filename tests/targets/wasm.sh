# shellcheck shell=sh disable=SC2154,SC2034
# WebAssembly, in node: the module with a 64-bit memory where it takes one, and the one that binaryen makes of that; a part of
# tests/targets/run.

# wants OPTION..: whether node takes 64-bit memories, with these options
wants() {
  node "$@" -e 'process.exit(WebAssembly.validate(new Uint8Array([0, 97, 115, 109, 1, 0, 0, 0, 5, 3, 1, 4, 1])) ? 0 : 1)' 2> "$work/log"
}
# module NAME OPTION..: holds a module to what the library and the program answer
module() {
  name=$1
  shift
  for way in copied in-place; do
    (cd "$work/files" && node "$@" "$here/dump.mjs" "$top/ports/out/wasm/$name" $way < "$work/names") > "$work/module"
    same "$name, $way" "$work/native" "$work/module"
  done
  node "$@" "$here/vectors.mjs" "ports/out/wasm/$name" vectors/load.tsv vectors/objects.tsv "$work/every" \
    vectors/warnings.tsv > "$work/told" ||
    lack "$name and the suite differ: $(head -n 1 "$work/told")"
  compared=$((compared + $(tail -n 1 "$work/told" | cut -d ' ' -f 1)))
  pass
}
if has WebAssembly node; then
  builds wasm
  starts wasm
  node "$here/layouts.mjs" > "$work/layouts.c"
  "$CC" -std=c11 -Ibindings/c -fsyntax-only "$work/layouts.c" || lack 'bindings/javascript/structs.js and hunk.h differ'
  pass
  node "$here/kinds.mjs" docs/FORMAT.md > "$work/told" || lack "$(head -n 1 "$work/told")"
  pass
  if wants; then
    module hunk.wasm
  elif wants --experimental-wasm-memory64; then
    module hunk.wasm --experimental-wasm-memory64
  else
    echo 'note: tests/targets: hunk.wasm was not tried, as node has no 64-bit memories'
  fi
  if has hunk32.wasm wasm-opt; then
    module hunk32.wasm
    if [ "$MEASURE" ]; then
      (cd ports/out/wasm && stat -c '%n: %s bytes' hunk.wasm hunk32.wasm)
      echo "$subject: lines $((compared - before))"
    fi
    # shellcheck source=tests/targets/package.sh
    . "$here/package.sh"
  fi
fi
