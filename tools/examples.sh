# What the tools that run examples share: sourced, with the folder of the examples in `examples` and one to work in in `work`.

# Runs the program on the images, as one that may write only what the files allow: root too.
run_example() {
    if [ "$(id -u)" -eq 0 ]; then
        setpriv --bounding-set=-dac_override --inh-caps=-dac_override "$program" --images "$work/images"
    else
        "$program" --images "$work/images"
    fi
}

# Makes images of zeros: those that NAME.images lists by a name and a number of sectors, or i0 of 256 sectors.
make_zeros() {
    if [ -e "$examples/$1.images" ]; then cat "$examples/$1.images"; else echo i0 256; fi | while read -r image sectors; do
        truncate -s $((sectors * 512)) "$work/images/$image"
    done
}

# Makes the images of an example: of zeros, or those that the example in NAME.after leaves, of which those in NAME.readonly
# may only be read then.
make_images() {
    rm -rf "$work/images"
    mkdir "$work/images"
    if [ ! -e "$examples/$1.after" ]; then
        make_zeros "$1"
    else
        before=$(cat "$examples/$1.after")
        make_zeros "$before"
        run_example <"$examples/$before.vx" >"$work/before" || true
        (cd "$work/images" && xargs chmod a-w) <"$examples/$1.readonly"
    fi
}

# The status that an example ends with.
status_of() {
    if [ -e "$examples/$1.status" ]; then cat "$examples/$1.status"; else echo 0; fi
}
