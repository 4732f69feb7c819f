# What builds a program for x86-64 on this machine, and what runs it; read by `.` in the root of the
# repository. The archive is for x86-64: on another machine the compiler is Debian's for x86-64,
# programs are linked with their C library, and Debian's emulator runs them. The toolchain itself
# runs on x86-64 alone, so that there an archive is needed that was built elsewhere.
#
# Sets the words `compile_c`, `compile_cpp` and `list_names` (nm), and `emulator`, which stands
# before a program's path. What is compiled keeps to `strict`: no warning passes.
strict='-O2 -Wall -Wextra -Wpedantic -Wconversion -Wshadow -Werror'
PATH=$PATH:/opt/rattle/bin # where the toolchain stands if it is not on the path

if [ "$(uname -m)" = x86_64 ]; then
    sh tests/tools cc=gcc c++=g++ /usr/include/stdio.h=libc6-dev nm=binutils \
        pkg-config=pkg-config make=make
    compile_c=cc compile_cpp=c++ list_names=nm emulator=''
else
    cross=x86_64-linux-gnu
    sh tests/tools "$cross-gcc=gcc-x86-64-linux-gnu" "$cross-g++=g++-x86-64-linux-gnu" \
        "$cross-nm=binutils-x86-64-linux-gnu" "/usr/$cross/include/stdio.h=libc6-dev-amd64-cross" \
        qemu-x86_64=qemu-user pkg-config=pkg-config make=make
    compile_c="$cross-gcc -static" compile_cpp=$cross-g++ list_names=$cross-nm
    emulator=qemu-x86_64
fi
