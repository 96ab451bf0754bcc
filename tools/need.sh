# need TOOL...: says in one line which tools are missing, and ends the script with status 2. To be sourced.
need() {
  missing=
  for tool in "$@"; do
    command -v "$tool" >/dev/null 2>&1 || missing="$missing $tool"
  done
  [ -z "$missing" ] || { echo "${0##*/}: not installed:$missing (README.md, Install, names the packages)" >&2; exit 2; }
}
