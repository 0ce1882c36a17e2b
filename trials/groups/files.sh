# shellcheck shell=bash disable=SC2154
# Group `files`: settings, definitions and checkpoints that are none.

# The name of a trial, a pattern of the line on standard error, and a command line; status 2 is wanted. It may take twenty
# seconds of processor time. The clock sets no such limit, since other trials may have the processors.
refused() {
    local found
    timeout 600 bash -c "ulimit -t 20; $3" >out 2>err </dev/null
    found=$?
    if [ $found = 2 ] && [ "$(wc -l <err)" = 1 ] && grep -qxE "$2" err && ! [ -s out ]; then
        ok "$1"
    else
        no "$1: status $found: $(head -c 300 err)"
    fi
}

files() {
    # guards: definitionread-gives-the-fields-or-the-refusal
    # guards: settingsread-gives-the-settings-or-the-refusal
    # guards: a-jobs-checkpoint-is-written-and-read
    # guards: faults-name-the-file-as-it-was-given
    # guards: each-step-has-only-its-own-faults
    # guards: a-run-with-ok-has-replaced-the-checkpoints-file
    local seed octets
    names
    for seed in 1 2 3 4; do
        for octets in 1 40 3000 1048576; do
            python3 "$here/reference.py" make random $seed $octets >junk || no "junk isn't made"
            refused "settings of $octets random octets, seed $seed" "tmx: settings: (toml|missing spacecraft)" "$tmx packets --settings junk $rec"
            refused "definition of $octets random octets, seed $seed" "tmx: definition: (csv|column name)" "$tmx fields --settings $s --definition junk --apid 1 $rec"
            refused "checkpoint of $octets random octets, seed $seed" "tmx: checkpoint: (short|magic)" "$packets --resume junk $rec"
        done
    done
    : >empty
    gives "settings: empty" 2 "tmx: settings: missing spacecraft" "$tmx packets --settings empty $rec"
    gives "definition: empty" 2 "tmx: definition: column name" "$tmx fields --settings $s --definition empty --apid 1 $rec"
    gives "checkpoint: empty" 2 "tmx: checkpoint: short" "$packets --resume empty $rec"
    filled settings.full "$s" 1048576
    filled settings.over "$s" 1048577
    gives "settings of 1 MiB" 0 "" "$tmx packets --settings settings.full --report r $rec"
    gives "settings of 1 MiB and an octet" 2 "tmx: settings.over: too long" "$tmx packets --settings settings.over $rec"
    { head -c $((1048576 - $(stat -c %s "$s"))) /dev/zero | tr '\0' '\n'; cat "$s"; } >settings.late
    gives "settings at the end of 1 MiB" 0 "" "$tmx packets --settings settings.late --report r $rec"
    tell "settings at the end of 1 MiB: all of the output" "$(cmp out expected/packets 2>&1)"
    filled fields.full "$example/attitude.csv" 1048576
    filled fields.over "$example/attitude.csv" 1048577
    gives "definition of 1 MiB" 0 "" "$tmx fields --settings $s --definition fields.full --apid 101 --report r $rec"
    gives "definition of 1 MiB and an octet" 2 "tmx: fields.over: too long" "$tmx fields --settings $s --definition fields.over --apid 101 $rec"
    gives "checkpoint of 1 MiB and an octet" 2 "tmx: fields.over: too long" "$packets --resume fields.over $rec"
    gives "settings: /dev/zero" 2 "tmx: /dev/zero: too long" "$tmx packets --settings /dev/zero $rec"
    gives "definition: /dev/zero" 2 "tmx: /dev/zero: too long" "$tmx fields --settings $s --definition /dev/zero --apid 1 $rec"
    gives "checkpoint: /dev/zero" 2 "tmx: /dev/zero: too long" "$packets --resume /dev/zero $rec"
    gives "settings: a folder" 1 "tmx: split: failed" "$tmx packets --settings split $rec"
    gives "definition: a folder" 1 "tmx: split: failed" "$tmx fields --settings $s --definition split --apid 1 $rec"
    gives "checkpoint: a folder" 1 "tmx: split: failed" "$packets --resume split $rec"
    gives "settings: missing" 1 "tmx: no\\x0afile\\xc3\\xa9: failed" "$tmx packets --settings \$'no\nfile\xc3\xa9' $rec"
    rm r
    gives "files that are made under umask 027" 0 "" "umask 027; $split --report r --checkpoint c $rec"
    tell "files that are made under umask 027: the rights of new files" "$(find r c split/*.pkt ! -perm 640 2>&1)"
    nested_settings
    altered_checkpoints
    two_checkpoints
    plan 97
}

# Settings that are as deep or as many as 1 MiB allows.
nested_settings() {
    local name
    python3 - <<'END' || no "the deep settings aren't made"
most = 1048576
def text(name, octets):
    open(name, "w").write(octets[:most])
text("arrays", "a = " + "[" * most)
text("closed_arrays", "a = " + "[" * 500000 + "]" * 500000)
text("inline_tables", "a = " + "{a = " * most)
text("dotted_key", "a" + ".a" * 500000 + " = 1")
text("dotted_table", "[a" + ".a" * 500000 + "]")
text("dotted_array_of_tables", "[[a" + ".a" * 500000 + "]]")
text("keys", "".join(f"k{n} = 1\n" for n in range(90000)))
text("tables", "".join(f"[t{n}]\n" for n in range(90000)))
text("arrays_of_tables", "[[a]]\n" * 170000)
text("growing_key", "".join("a." * n + "b = 1\n" for n in range(1, 1000)))
text("quote", "a = \"" + "\\u0041" * 170000)
text("comment", "#" * most)
text("digits", "spacecraft = " + "1" * 1000000)
END
    for name in arrays closed_arrays inline_tables dotted_key dotted_table dotted_array_of_tables keys tables arrays_of_tables \
        growing_key quote comment digits; do
        refused "settings of 1 MiB: $name" "tmx: settings: (toml|unknown .*|missing spacecraft|kind spacecraft)" "$tmx packets --settings $name $rec"
    done
    python3 - <<'END' || no "the long definitions aren't made"
most = 1048576
def text(name, octets):
    open(name, "w").write(octets[:most])
head = "name,data_type,bit_length\n"
text("commas", "," * most)
text("quotes", "\"" * most)
text("open_quote", head + "\"" + "a\n" * 500000)
text("rows", head + "".join(f"n{n},uint,1\n" for n in range(70000)))
text("one_column", "name\n" * 200000)
END
    for name in commas quotes open_quote rows one_column; do
        refused "definition of 1 MiB: $name" "tmx: definition: (csv|column name|column data_type|too many)" "$tmx fields --settings $s --definition $name --apid 1 $rec"
    done
}

altered_checkpoints() {
    local records version
    for records in 150 190; do
        # Longer files that stand there have no part in it.
        cp "$rec" c
        cp "$rec" c.new
        gives "a checkpoint after $records records" 0 "" "$packets --report r --checkpoint c --stop-after $records $rec"
        python3 "$here/reference.py" keep "$s" "$rec" $records 3 >c3 || no "c3 isn't made"
        tell "a checkpoint after $records records: the known octets" "$(cmp c c3 2>&1)"
        altered_checkpoint $records "$s" c
    done
    grep -v '^max_packet' "$s" >plain.toml
    for version in 1 2; do
        python3 "$here/reference.py" keep plain.toml "$rec" 150 $version >c || no "c isn't made"
        gives "a checkpoint of version $version" 0 "" "$tmx packets --settings plain.toml --resume c --report r $rec"
        altered_checkpoint "150, version $version" plain.toml c
    done
}

# The records, the settings and the checkpoint.
altered_checkpoint() {
    says "after $1 records" python3 "$here/checkpoints.py" "$tmx" "$2" "$rec" "$3"
}

# A job goes on from the file of --resume, whatever that of --checkpoint has.
two_checkpoints() {
    local records
    for records in 100 150 190; do
        python3 "$here/reference.py" keep "$s" "$rec" $records 3 >after$records || no "after$records isn't made"
    done
    cp after100 c
    gives "from one checkpoint to another" 0 "" "$packets --report r --resume after150 --checkpoint c --stop-after 40 $rec"
    tell "from one checkpoint to another: the known octets" "$(cmp c after190 2>&1)"
}
