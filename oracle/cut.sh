# shellcheck shell=bash
# Sourced: items of gilrs's source, cut out by name, for what is private there. `item FILE FIRST-LINE` prints the item
# of the file that starts with this line, up to the brace at the same depth that ends it.
item() {
  awk -v first="$2" '
    index($0, first) && !on { on = 1; match($0, /^ */); depth = RLENGTH }
    on { print }
    on && match($0, /^ *}/) && RLENGTH == depth + 1 { found = 1; exit }
    END { if (!found) { print "no item: " first > "/dev/stderr"; exit 1 } }
  ' "$1"
}
