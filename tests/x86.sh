# The library is for x86-64 Linux: the kit compiles for nothing else. This is sourced by what tests and measures it.
# On an x86-64 machine it changes nothing. On another it installs, once, a C compiler, Rust's library and an emulator for x86-64 from Debian's
# packages, and has cargo build for x86-64 and run by the emulator: times then say nothing, answers and counts of instructions are the same.
# After it $CC and $CXX compile C and C++ for x86-64, $RUN stands before a program to run it (empty where nothing is needed), and $NATIVE is yes or no.
export CC=cc CXX=c++ RUN= NATIVE=yes
if [ "$(uname -m)" != x86_64 ]; then
  NATIVE=no CC=x86_64-linux-gnu-gcc CXX=x86_64-linux-gnu-g++ RUN=qemu-x86_64
  export RUSTC=/usr/bin/rustc RUSTDOC=/usr/bin/rustdoc CARGO_BUILD_TARGET=x86_64-unknown-linux-gnu
  export CARGO_TARGET_X86_64_UNKNOWN_LINUX_GNU_LINKER=$CC CARGO_TARGET_X86_64_UNKNOWN_LINUX_GNU_RUNNER=$RUN
  missing=no
  [ -d "/usr/lib/rustlib/$CARGO_BUILD_TARGET" ] || missing=yes
  for tool in "$CC" "$CXX" "$RUN" "$RUSTC" "$RUSTDOC"; do command -v "$tool" >/dev/null || missing=yes; done
  if [ "$missing" = yes ]; then
    log=$(mktemp)
    echo 'x86.sh: this machine is no x86-64; installing what compiles and runs x86-64 programs (about a minute)' >&2
    if ! { dpkg --add-architecture amd64 && apt-get update &&
      apt-get install -y --no-install-recommends g++-x86-64-linux-gnu qemu-user rustc-web libstd-rust-web-dev:amd64; } >"$log" 2>&1; then
      tail -n 20 "$log" >&2
      echo 'x86.sh: that failed: x86-64 programs cannot be tested here' >&2
      exit 1
    fi
    rm -f "$log"
  fi
fi
