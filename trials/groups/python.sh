# shellcheck shell=bash disable=SC2154
# Group `python`: the package for Python, over the example and over damaged recordings, beside what reference.py says.

# Half of the time goes to two modules, so they run beside the others. The group `library` has test_engine.
python() {
    local others longest
    others=$(cd "$here/../python/tests" && printf '%s\n' test_*.py | sed 's/\.py$//' | grep -vxE 'test_probe|test_steps|test_engine')
    TMX=$tmx python3 "$here/../python/tests/run.py" test_probe test_steps >longest 2>&1 &
    longest=$!
    # shellcheck disable=SC2086
    part "the other tests" env "TMX=$tmx" python3 "$here/../python/tests/run.py" $others
    wait $longest
    count_part "test_probe and test_steps" $? longest
    plan 2
}
