# Functions of host/check: projects in an empty folder, built against the installed files alone.
clean=$(mktemp -d) || exit 2
trap 'rm -rf "$clean"' EXIT
version=$(sed -n 's/^#define SWARMTEMPO_VERSION "\(.*\)"/\1/p' include/swarmtempo.h)
abi=${version%.*}
host=$(pwd -P)

install_c() { make -s SWARMTEMPO_LIB_DIR="$folder" BUILD="$clean/lib" "$@"; }

header_in_c99() {
    echo '#include "swarmtempo.h"' |
        gcc -std=c99 -Wall -Wextra -Wpedantic -Wconversion -Werror -I"$clean/usr/include" -x c -fsyntax-only -
}

# Every file and no other; both libraries have exactly the functions that the header declares, and call
# what it says; the shared one has its soname and no text relocations.
installed() (
    install_c install PREFIX="$clean/usr" || return 1
    (cd "$clean/usr" && find . ! -type d | sort) >"$clean/files"
    diff - "$clean/files" <<END || return 1
./include/swarmtempo.h
./lib/cmake/swarmtempo/swarmtempo-config-version.cmake
./lib/cmake/swarmtempo/swarmtempo-config.cmake
./lib/libswarmtempo.a
./lib/libswarmtempo.so
./lib/libswarmtempo.so.$abi
./lib/libswarmtempo.so.$version
./lib/pkgconfig/swarmtempo.pc
END
    cd "$clean/usr/lib" || return 1
    sed -n '/^static/d; s/^[a-z].*[ *]\(swarmtempo_[a-z_]*\)(.*/\1/p' ../include/swarmtempo.h | sort >"$clean/declared"
    nm --defined-only --extern-only libswarmtempo.a | sed -n 's/.* T //p' | sort | diff "$clean/declared" - || return 1
    nm --dynamic --defined-only libswarmtempo.so | sed -n 's/.* T //p' | sort | diff "$clean/declared" - || return 1
    ! nm --undefined-only libswarmtempo.a | sed -n 's/.* U //p' | grep -vxE 'mem(cpy|move|set|cmp)|bcmp' || return 1
    readelf -hd libswarmtempo.so >"$clean/dynamic" || return 1
    grep -qF "[libswarmtempo.so.$abi]" "$clean/dynamic" || { cat "$clean/dynamic"; return 1; }
    ! grep -E 'NEEDED|TEXTREL' "$clean/dynamic" | grep -vF '[libc.so.6]' && grep -q 'Machine:.*X86-64' "$clean/dynamic"
)

shared_samples() {
    gcc -std=c11 -I"$clean/usr/include" c/check.c -L"$clean/usr/lib" -lswarmtempo -o "$clean/samples" &&
        LD_LIBRARY_PATH=$clean/usr/lib "$clean/samples"
}

# What docs/SHELLS.md has in a language.
shown_in() { sed -n "/^\`\`\`$1\$/,/^\`\`\`\$/p" "$root/docs/SHELLS.md" | sed '/^```/d'; }

manual_in_c() {
    {
        printf '#include <stdio.h>\n#include "swarmtempo.h"\nint main(void)\n{\n'
        shown_in c
        printf 'return 0;\n}\n'
    } >"$clean/shown.c"
    gcc -std=c11 -Wall -Wextra -Werror -I"$clean/usr/include" "$clean/shown.c" -o "$clean/shown" "$clean/usr/lib/libswarmtempo.a" &&
        "$clean/shown" >"$clean/said" && printf 'flags $00, interrupt level 0\ncell 3: $00\n' | diff - "$clean/said"
}

cxx_program() {
    g++ -std=c++11 -Wall -Wextra -Werror -I"$clean/usr/include" -x c++ c/example.c -x none -o "$clean/cxx" \
        -L"$clean/usr/lib" -lswarmtempo && linked "$clean/cxx" 0
}

# A program and whether it needs the shared library, as it should.
linked() {
    readelf -d "$1" | grep -qF "[libswarmtempo.so.$abi]"
    [ $? -eq "$2" ] || { echo "$1: wrong library linked"; return 1; }
    LD_LIBRARY_PATH=$clean/usr/lib "$1" | grep -qx 'cell 0 holds $AA'
}

project() {
    rm -rf "${clean:?}/project" && mkdir "$clean/project" && cp c/example.c c/project/* "$clean/project"
}

c_project() (
    project && cd "$clean/project" || return 1
    export PKG_CONFIG_PATH="$clean/usr/lib/pkgconfig"
    [ "$(pkg-config --modversion swarmtempo)" = "$version" ] || return 1
    make && linked ./example 0 && make static && linked ./example 1
)

# What a package takes: files below DESTDIR that name PREFIX; pkg-config finds them by its sysroot.
staged() (
    install_c install DESTDIR="$clean/stage" PREFIX=/opt/swarm LIBDIR=/opt/swarm/lib64 || return 1
    ! grep -rIl "$clean" "$clean/stage" || return 1
    project && cd "$clean/project" || return 1
    export PKG_CONFIG_PATH="$clean/stage/opt/swarm/lib64/pkgconfig" PKG_CONFIG_SYSROOT_DIR="$clean/stage"
    grep -qx 'libdir=/opt/swarm/lib64' "$PKG_CONFIG_PATH/swarmtempo.pc" && make static && linked ./example 1 || return 1
    cd "$host" && install_c uninstall DESTDIR="$clean/stage" PREFIX=/opt/swarm LIBDIR=/opt/swarm/lib64 || return 1
    [ -z "$(find "$clean/stage" ! -type d)" ]
)

cmake_project() (
    project && cd "$clean/project" || return 1
    cmake -B one -DCMAKE_PREFIX_PATH="$clean/usr" && cmake --build one && linked one/example 1 || return 1
    cmake -B two -DCMAKE_PREFIX_PATH="$clean/usr" -DBUILD_SHARED_LIBS=ON && cmake --build two && linked two/example 0 || return 1
    sed -i "s/swarmtempo $abi/swarmtempo 9.9/" CMakeLists.txt
    ! cmake -B three -DCMAKE_PREFIX_PATH="$clean/usr"
)

# A crate in an empty folder, with the Rust of docs/SHELLS.md, over a copy of the sources, to which
# nothing is written; without the archive, a message that says how to get it. It links what make
# installed, or the archive where there is no make.
rust_project() (
    mkdir -p "$clean/copy/host" "$clean/crate/src" || return 1
    cp -r Cargo.toml Cargo.lock rust cli model include c "$clean/copy/host" || return 1
    cat >"$clean/crate/Cargo.toml" <<END
[package]
name = "crate"
version = "0.0.0"
edition = "2021"
[dependencies]
swarmtempo = { path = "../copy/host/rust" }
[workspace]
END
    {
        echo 'fn main() -> Result<(), Box<dyn std::error::Error>> {'
        shown_in rust
        echo 'Ok(()) }'
    } >"$clean/crate/src/main.rs"
    touch "$clean/before"
    cd "$clean/crate" || return 1
    export CARGO_TARGET_DIR="$clean/target"
    if (unset SWARMTEMPO_LIB_DIR && cargo build -q) 2>"$clean/said"; then return 1; fi
    grep -q 'host/archive' "$clean/said" || { cat "$clean/said"; return 1; }
    [ -d "$clean/usr/lib" ] && folder=$clean/usr/lib
    SWARMTEMPO_LIB_DIR="$folder" cargo run -q >"$clean/said" || return 1
    grep -x '0t SE: OK: value $00, level 1, SEL 1, lines on -' "$clean/said" || return 1
    ! find "$clean/copy" -newer "$clean/before" | grep . || return 1
    ! cargo tree -e normal,build | grep model
)

# The compiler denies it in all packages; only files named sys.rs take that back. The functions of the
# header are declared once.
unsafe_code() {
    [ "$(grep -rl 'fn swarmtempo_' rust cli model --include='*.rs')" = rust/src/sys.rs ] || return 1
    ! grep -rlE 'unsafe *\{|unsafe_code|extern "C"' rust cli model --include='*.rs' | grep -v '/sys\.rs$' || return 1
    grep -qx 'unsafe_code = "deny"' Cargo.toml && [ "$(grep -lx 'workspace = true' ./*/Cargo.toml | wc -l)" -eq 3 ]
}
