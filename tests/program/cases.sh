# shellcheck shell=sh disable=SC2154,SC2034
# The tables of runs in cases/: a part of tests/program/run.

"$here/cases.py" "$program" > told
ended=$(tail -n 1 told)
case $ended in
  'tests/program/cases: '*' passed, '*' failed')
    sed '$d' told
    ended=${ended#*: }
    passed=$((passed + ${ended%% *}))
    ended=${ended#*, }
    failed=$((failed + ${ended%% *}))
    ;;
  *)
    cat told
    echo 'tests/program: the tables were not tried to their end'
    failed=$((failed + 1))
    ;;
esac
