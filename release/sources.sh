# What the released program is made of, and which program runs, for ../vrptw, ../check, ./make and ./which, which read
# this file. It needs $top, the repository's folder, and bash, find, sort and sha256sum.

released=$top/release/vrptw-x86_64-linux
# Lines with the sum of the sources that it was made from, the toolchain that made it, and its version.
made_from=$top/release/made-from
# The program that was built here, and what it was made of.
program=$top/crates/program/out/program
stamp=$top/out/built

# The crates that the program stands on and itself, the lower ones first, in the list crates; what each stands on in
# stands_on.
find_crates() {
  local name rest
  declare -gA stands_on=() found=()
  while read -r name rest; do
    [[ $name != *: ]] || stands_on[${name%:}]=$rest
  done <"$top/crates.txt"
  crates=()
  add_crate program
}

# Adds a crate of the repository behind those that it stands on.
add_crate() {
  [[ -v stands_on[$1] && ! -v found[$1] ]] || return 0
  found[$1]=1
  local below
  for below in ${stands_on[$1]}; do
    add_crate "$below"
  done
  crates+=("$1")
}

# The sum of all that a proof of these crates reads: what each stands on, the handles that are allowed, and the names,
# sizes and checksums of their sources. Rows, wrong bodies and what a build made aren't among them. It is taken at each
# start, so it has to be quick: of 1,200 files checksums take half as long as SHA-256, and tell a change as well.
sources_sum() {
  local crate folders=() sum
  find_crates
  for crate in "${crates[@]}"; do
    folders+=(crates/"$crate"/{src,specs,proofs})
  done
  read -r sum _ < <({
    for crate in "${crates[@]}"; do echo "$crate: ${stands_on[$crate]}"; done
    cd "$top"
    # A crate may lack one of its folders; find says so and goes on.
    find HANDLES "${folders[@]}" -type f -print0 2>/dev/null | LC_ALL=C sort -z | xargs -0 cksum
  } | sha256sum)
  echo "$sum"
}

# Whether the release was made from the sources whose sum is given.
is_release_of() {
  [ "$(sed -n 's/^sources //p' "$made_from" 2>/dev/null)" = "$1" ]
}

# Whether the released file is the one whose SHA-256 stands beside it.
is_release_whole() {
  (cd "$top/release" && sha256sum --check --status vrptw-x86_64-linux.sha256) 2>/dev/null
}

# Ends with a line and a status.
refuse() {
  echo "vrptw: $2" >&2
  exit "$1"
}

# What the built program is made of: its sources, and the toolchain, where it is on the path.
made_of() {
  echo "$sum"
  if command -v rt >/dev/null; then rt version; else sed -n 2p "$stamp" 2>/dev/null || true; fi
}

is_built() {
  [ -x "$program" ] && [ -f "$stamp" ] && [ "$(cat "$stamp")" = "$now" ]
}

# Why the released program isn't run, where it isn't.
why_not_released() {
  if [ -n "${VRPTW_BUILD:-}" ]; then
    echo "VRPTW_BUILD asks for the proved build"
  elif [ "$(uname -sm)" != "Linux x86_64" ]; then
    echo "the released program is for x86-64 Linux, and this machine is $(uname -sm)"
  elif [ -n "$sum" ] && ! is_release_of "$sum"; then
    echo "the sources aren't those of the released program"
  fi
}

# Sets chosen to the program that runs: the released one, or, where why says why not that, the one that was built of
# these sources, and nothing where none was. A copy without sources has the released one.
choose_program() {
  sum= now= chosen=$released
  [ ! -e "$top/crates.txt" ] || sum=$(sources_sum)
  why=$(why_not_released)
  if [ -z "$why" ]; then
    is_release_whole ||
      refuse 126 "release/vrptw-x86_64-linux isn't the released file (its SHA-256 differs); fetch it again, or build by VRPTW_BUILD=1"
  else
    now=$(made_of) chosen=$program
    is_built || chosen=
  fi
}
