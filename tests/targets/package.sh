# shellcheck shell=sh disable=SC2154,SC2016
# The package of JavaScript as its users have it: packed, installed into an empty folder with no network, and called in node, of a
# bundle, by types and in a browser; a part of wasm.sh, which has built the modules. With --few only in node.
calls=$here/package
project=$work/project
symbol=$work/files/18-symbol
suite=$top/vectors

# prints WHAT LINES WORD..: that a command, in the folder of the project, prints these lines
prints() {
  what=$1
  printf '%s\n' "$2" > "$work/wanted"
  shift 2
  (cd "$project" && "$@") > "$work/told" 2> "$work/log" || lack "$what: $(cat "$work/told" "$work/log" | grep -m 1 .)"
  same "$what" "$work/wanted" "$work/told"
}
# installs: the package, into an empty folder
installs() {
  packaging/npm "$work/packed" > "$work/log" 2>&1 || lack "$(tail -n 1 "$work/log")"
  mkdir "$project"
  echo '{ "private": true, "type": "module" }' > "$project/package.json"
  export npm_config_cache="$work/cache" npm_config_update_notifier=false
  (cd "$project" && npm install --offline --no-audit --no-fund "$work"/packed/*.tgz) > "$work/log" 2>&1 ||
    lack "npm install: $(tail -n 1 "$work/log")"
  cp bindings/javascript/examples/* "$calls"/* "$project"
  python3 "$here/builds.py" "$suite/build.tsv" > "$work/builds" || lack 'tests/targets/builds.py prints no lists'
}
# runs OPTION..: the examples, in node with these options, and what the package promises
runs() {
  prints "symbols.js in node $*" "0 _m
4e754e71" node "$@" symbols.js "$symbol"
  prints "blocks.js in node $*" "$symbol 24 12 CODE
$symbol 36 20 SYMBOL
$symbol 56 4 END" node "$@" blocks.js "$symbol"
  # By hand, as in tests/command/building.py.
  prints "two-hunks.js in node $*" '000003f3000000000000000200000000000000010000000300000002000003e90000000341f9000000002018d0904e75
000003ec00000001000000010000000200000000000003f00000000273746172740000000000000000000000000003f2
000003ea000000020000001400000016000003f2' sh -c 'out=$1 && shift && node "$@" two-hunks.js "$out" && xxd -p -c 48 "$out"' sh "$work/two" "$@"
  prints "tests/targets/package/parts.js in node $*" 'as promised' node "$@" parts.js "$symbol"
  prints "tests/targets/package/inputs.js in node $*" 'as promised' node "$@" inputs.js "$symbol"
  prints "tests/targets/package/wrong.js in node $*" 'as promised' node "$@" wrong.js "$symbol"
  prints "tests/targets/package/fuzz.js in node $*" 'as promised' \
    node "$@" fuzz.js "$work/builds" "$suite/load.tsv" "$suite/objects.tsv" "$suite/wide.tsv" "$suite/warnings.tsv"
}
# types: that a program compiles, with no types of a browser or of node, by both ways in which packages are found
types() {
  prints tests/targets/package/types.ts compiled sh -c 'tsc -p . && echo compiled'
  prints 'tests/targets/package/types.ts, by folders' compiled \
    sh -c 'tsc -p . --module esnext --moduleResolution node && echo compiled'
}
# bundles: a script of one file with the module inside, and one beside which the modules stand
bundles() {
  prints 'esbuild of hunk-files/inline' '1' sh -c 'esbuild inline.js --bundle --format=esm --log-level=error \
    --outfile=bundle/inline.js && mv bundle/inline.js "$0" && node "$0"' "$work/inline.mjs"
  prints 'esbuild of symbols.js' '0 _m
4e754e71' sh -c 'esbuild symbols.js --bundle --platform=node --format=esm --log-level=error --outfile=bundle/symbols.js &&
    cp node_modules/hunk-files/*.wasm bundle && node bundle/symbols.js "$0"' "$symbol"
}
# browses BROWSER: the page of the examples. Without node-ws, node 20 has a WebSocket behind an option.
browses() {
  mkdir "$work/$1"
  option=--experimental-websocket
  node $option -e 0 2> /dev/null || option=
  prints "index.html in $1" 'byte 24: CODE, 12 bytes
byte 36: SYMBOL, 20 bytes
byte 56: END, 4 bytes' node $option "$here/page.mjs" "$1" "$project" "$symbol" "$work/$1"
}

sed -n '/^## From JavaScript/,/^### /p' docs/CALLING.md | sed -n '/^```js$/,/^```$/p' | sed '1d;$d' |
  diff - bindings/javascript/examples/symbols.js > "$work/cmp" ||
  lack 'docs/CALLING.md and bindings/javascript/examples/symbols.js differ'
pass
if has 'the package of JavaScript' npm; then
  installs
  runs
  if ! wants && wants --experimental-wasm-memory64; then
    runs --experimental-wasm-memory64
  fi
  if [ -z "$few" ]; then
    cp "$work"/packed/*.tgz "$work/first"
    packaging/npm "$work/packed" > "$work/log"
    same 'packaging/npm, once more' "$work/first" "$work"/packed/*.tgz
    if has 'hunk.d.ts' tsc; then
      types
    fi
    if has 'the package in a bundle' esbuild; then
      bundles
    fi
    if has 'the package in Chromium' chromedriver; then
      browses chromium
    fi
    if has 'the package in Firefox' firefox-esr; then
      browses firefox
    fi
  fi
fi
