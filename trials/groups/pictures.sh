# shellcheck shell=bash disable=SC2154
# Group `pictures`: what `python3 -m tmx map` draws, and what it refuses.

# The picture in docs/ is that of the example, drawn from what the program prints.
picture_of_docs() {
    "$tmx" frames --settings "$s" "$rec" >frames.txt
    "$tmx" extract --settings "$s" --report report.txt "$rec" >packets.pkt
    $draw --title "The example recording" frames.txt report.txt | cmp - "$example/../docs/loss_map.svg" 2>&1
}

pictures() {
    local draw="python3 -m tmx map"
    export PYTHONPATH=$here/../python PYTHONDONTWRITEBYTECODE=1
    names
    tell "the picture in docs" "$(picture_of_docs)"
    gives "a picture of a file that is missing" 1 "tmx map: none: No such file or directory" "$draw none none"
    gives "a picture of a folder" 1 "tmx map: .: Is a directory" "$draw . report.txt"
    gives "a picture of zeros without end" 1 "tmx map: /dev/zero, line 1: no line of \`tmx frames\`" "$draw /dev/zero report.txt"
    gives "a picture on a full device" 1 "tmx map: standard output: No space left on device" "$draw frames.txt report.txt >/dev/full"
    part pictures.py python3 "$here/pictures.py" "$PICTURED"
    plan 6
}
