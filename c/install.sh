#!/usr/bin/env bash
# install.sh PREFIX [TARGET]: installs headers, static and shared library, a pkg-config file, a CMake package and a man page below PREFIX
# (DESTDIR is put before it). Another target than this machine's goes to PREFIX/lib/TARGET. Then:
#     cc program.c $(pkg-config --cflags --libs message_loop)
#     find_package(message_loop) and target_link_libraries(program message_loop::message_loop)
set -eu
here=$(cd "$(dirname "$0")" && pwd)
prefix=${1:?usage: install.sh PREFIX [TARGET]}
target=${2:-$(uname -m)-linux-gnu}
"$here/build.sh" "$target"
built=$here/out/$target
full=$(cat "$built/version")
major=${full%%.*}
lib=lib
[ "$target" = "$(uname -m)-linux-gnu" ] || lib=lib/$target
to=${DESTDIR:-}$prefix
install -d "$to/share/man/man3" "$to/include/message_loop" "$to/$lib/pkgconfig" "$to/$lib/cmake/message_loop" "$to/share/message_loop"
for header in "$here"/message_loop_posix.h "$here"/message_trace.h "$here"/../crates/{message_queue_c,frame_phases_c,loop_sources_c,loop_next_c,countdown_c,animator_c}/include/*.h; do
    install -m 644 "$header" "$to/include/message_loop/"
done
install -m 644 "$built/libmessage_loop.a" "$to/$lib/"
install -m 755 "$built/libmessage_loop.so.$full" "$to/$lib/"
ln -sf "libmessage_loop.so.$full" "$to/$lib/libmessage_loop.so.$major"
ln -sf "libmessage_loop.so.$major" "$to/$lib/libmessage_loop.so"
sed "s/@VERSION@/$full/" "$here/message_loop.3" >"$to/share/man/man3/message_loop.3"
chmod 644 "$to/share/man/man3/message_loop.3"
# as sources too, for a program that has its own loop or heap
install -m 644 "$here"/message_loop_{posix,frames,sources,system,poll}.c "$here"/message_loop_{parts,system}.h "$here/../examples/embed/heap.c" "$to/share/message_loop/"
cat >"$to/$lib/pkgconfig/message_loop.pc" <<P
prefix=$prefix
libdir=\${prefix}/$lib
includedir=\${prefix}/include/message_loop
Name: message_loop
Description: Android's message loop and frames for C, over proved libraries
Version: $full
Cflags: -I\${includedir}
Libs: -L\${libdir} -lmessage_loop
Libs.private: -lpthread
P
up=../../..
[ "$lib" = lib ] || up=../../../..
cat >"$to/$lib/cmake/message_loop/message_loop-config.cmake" <<P
get_filename_component(_message_loop "\${CMAKE_CURRENT_LIST_DIR}/$up" ABSOLUTE)
find_package(Threads REQUIRED)
if(NOT TARGET message_loop::message_loop)
  foreach(_kind shared static)
    string(TOUPPER \${_kind} _upper)
    add_library(message_loop::\${_kind} \${_upper} IMPORTED)
    set_target_properties(message_loop::\${_kind} PROPERTIES INTERFACE_INCLUDE_DIRECTORIES "\${_message_loop}/include/message_loop"
      INTERFACE_LINK_LIBRARIES Threads::Threads)
  endforeach()
  set_target_properties(message_loop::static PROPERTIES IMPORTED_LOCATION "\${_message_loop}/$lib/libmessage_loop.a")
  set_target_properties(message_loop::shared PROPERTIES IMPORTED_LOCATION "\${_message_loop}/$lib/libmessage_loop.so.$full"
    IMPORTED_SONAME libmessage_loop.so.$major)
  add_library(message_loop::message_loop INTERFACE IMPORTED)
  set_target_properties(message_loop::message_loop PROPERTIES INTERFACE_LINK_LIBRARIES message_loop::shared)
endif()
P
cat >"$to/$lib/cmake/message_loop/message_loop-config-version.cmake" <<P
set(PACKAGE_VERSION $full)
# of version 0 each minor version is another
if(PACKAGE_FIND_VERSION VERSION_LESS_EQUAL PACKAGE_VERSION AND "\${PACKAGE_FIND_VERSION_MAJOR}.\${PACKAGE_FIND_VERSION_MINOR}" STREQUAL "${full%.*}")
  set(PACKAGE_VERSION_COMPATIBLE TRUE)
endif()
P
echo "installed message_loop $full for $target below $to"
