# Makes a root that has pitc, pitc_thin and the libraries that they need, and nothing else: for chroot, or as the image of a container. The
# programs are those of the PATH, and the libraries those of this system.
#
#     sh examples/root.sh FOLDER
#     chroot FOLDER /bin/pitc --version           as root
#     tar -C FOLDER -c . | podman import - pitc   an image
set -eu
root=$1
mkdir -p "$root/bin"
for program in pitc pitc_thin; do
    found=$(command -v "$program")
    cp "$found" "$root/bin/$program"
    ldd "$found" | sed -n 's|^[^/]*\(/[^ ]*\) (.*|\1|p' | while read -r library; do
        mkdir -p "$root$(dirname "$library")"
        cp -L "$library" "$root$library"
    done
done
