# Sourced at the top by run, test, the comparisons and the benchmark: goes on only with the kit that README.md pins, and gives `told`
# and `build`.
pinned=$(sed -n 's/^Kit: `\(.*\)`\.$/\1/p' README.md)
if ! command -v rt >/dev/null 2>&1; then
  echo "oblakosh: the Rattle kit is missing (no command rt); README.md pins $pinned" >&2
  exit 2
fi
if [ "$(rt version)" != "$pinned" ]; then
  echo "oblakosh: this kit is '$(rt version)'; README.md pins '$pinned'" >&2
  exit 2
fi

# One log of a command and those that it calls.
if [ -z "${OBLAKOSH_LOG-}" ]; then
  mkdir -p target
  export OBLAKOSH_LOG=$PWD/target/rt.log
  : >"$OBLAKOSH_LOG"
fi

# What rt says, on standard input, goes to the log, and progress is shown.
told() { tee -a "$OBLAKOSH_LOG" | ./progress; }

# Proves these programs and crates of exports to C, builds them, and puts each where README.md's commands take it from: target/bin/NAME,
# and target/staticlib/libNAME.a of NAME_c, or of NAME. A program is also run once.
build() {
  local name input
  mkdir -p target/bin target/staticlib
  for name; do
    if [ -e "crates/$name/src/main.rt" ]; then
      input=/dev/null
      [ ! -e "crates/$name/stdin" ] || input=stdin
      (cd "crates/$name" && rt run <"$input" 2>&1 >/dev/null) | told
      cp "crates/$name/out/$name" target/bin/
    else
      (cd "crates/$name" && rt lib 2>&1) | told
      cp "crates/$name/out/lib$name.a" "target/staticlib/lib${name%_c}.a"
    fi
  done
}
