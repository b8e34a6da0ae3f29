# Where things are installed, from PREFIX, INCLUDEDIR, LIBDIR and DESTDIR in the environment; for the two scripts beside it.
version=$(cat VERSION)
major=${version%%.*}

case " $PREFIX $INCLUDEDIR $LIBDIR $DESTDIR" in
    *' ~'*)
        echo 'a ~ that the shell has not replaced: write $HOME' >&2
        exit 1
        ;;
esac

# Of two parts, the second under the first where it is not whole by itself.
under() {
    case $2 in
        /*) realpath --canonicalize-missing --no-symlinks "$2" ;;
        *) realpath --canonicalize-missing --no-symlinks "$1/$2" ;;
    esac
}

prefix=$(under "$PWD" "${PREFIX:?is empty}")
includedir=$(under "$prefix" "${INCLUDEDIR:-include}")
libdir=$(under "$prefix" "${LIBDIR:-lib}")
include=$DESTDIR$includedir
lib=$DESTDIR$libdir

# Does the loader look there by itself, once it is told that something is new, or not at all?
case $libdir in
    /lib | /lib64 | /usr/lib | /usr/lib64 | /lib/*-linux-* | /usr/lib/*-linux-*) looked_in=always ;;
    /usr/local/lib | /usr/local/lib64) looked_in=when_told ;;
    *) looked_in=never ;;
esac

tell_loader() {
    if [ -n "$DESTDIR" ] || [ $looked_in = never ]; then return; fi
    PATH=$PATH:/sbin:/usr/sbin ldconfig 2> /dev/null || true
}
