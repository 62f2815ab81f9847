#!/usr/bin/env bash
# What the pages say is there, is there: each `name` before a (`file`) is declared in that file, each wrong program of
# crates/*/must-fail has its row in docs/WRONG.md and each row its wrong program, and each link of a page leads to a file.
set -euo pipefail
cd "$(dirname "$0")/.."

bad=0
say() { printf 'pages: %s\n' "$1" >&2; bad=1; }

# each file and a name that is said to stand in it, one pair a line
cited() {
  perl -ne '
    my @names;
    while (/\(`([^`]*\.(?:antt|rt|rs|h|sh))`|`([^`]+)`|([;|)])/g) {
      if (defined $1) { print "$1\t$_\n" for @names; print "$1\t\n" unless @names }
      elsif (defined $2) { my $n = $2; $n =~ s/^.*:://; $n =~ s/^\.//; push @names, $n if $n =~ /^[\w-]+$/ && $n !~ /_$/ }
      else { @names = () }
    }' "$@"
}

# whether a file declares a name: a definition, theorem, field or constructor; a function, type, variant or field; in a script or
# a text, that it stands there as a word
declares() { # PATH NAME
  case $1 in
    *.antt) grep -qP -- "^\\s*((unfoldable|abbrev|pub|record|data)\\s+)*\\Q$2\\E(\\s|$)" "$1" ;;
    *.rt | *.rs) grep -qP -- "\\b(fn|struct|enum|const|type|mod)\\s+\\Q$2\\E\\b|^\\s*(pub\\s+)?\\Q$2\\E\\s*([:,({]|$)" "$1" ;;
    *) grep -qwF -- "$2" "$1" ;;
  esac
}

while IFS=$'\t' read -r file name; do
  path=$file
  [[ -f $path ]] || path=crates/$file
  if [[ ! -f $path ]]; then
    say "no file $file"
  elif [[ -n $name ]] && ! declares "$path" "$name"; then
    say "$file declares no $name"
  fi
done < <(cited docs/PROMISES.md docs/WRONG.md)

# the wrong programs that are tried, and those of the tables' columns of edits; a crate's name stands there in brackets. A name of two crates has two rows
tried=$(sed -nE 's/^# ([a-z0-9_]+), refused by .*/\1/p' crates/*/must-fail/*.edit | sort)
rows=$(awk -F' *[|] *' '!/^[|]/ { column = 0; next }
  !column { for (i = 2; i < NF; i++) if ($i == "edit") column = i; if (!column) column = NF + 1; next }
  { print $column }' docs/WRONG.md | sed -E 's/\([^)]*\)//g' | grep -oE '`[a-z0-9_]+`' | tr -d '`' | sort)
while read -r name; do say "no row for the wrong program $name in docs/WRONG.md"; done < <(comm -23 <(echo "$tried") <(echo "$rows"))
while read -r name; do say "docs/WRONG.md has a row for $name, which is not tried"; done < <(comm -13 <(uniq <<<"$tried") <(uniq <<<"$rows"))

for page in README.md docs/*.md; do
  while read -r link; do
    [[ -e $(dirname "$page")/$link ]] || say "$page links to $link, which is not there"
  done < <(perl -ne 'print "$1\n" while /\]\(([^)#:]+)\)/g' "$page")
done

((bad == 0))
printf 'pages: every name, edit and link is there\n'
