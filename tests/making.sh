# Words in which the samples of tests/bench/*/make are written.

# a set: an entry for each word, of kind 1, or of kind 2 and without its first letter where that is ~
tags() {
  local tag word kind
  for tag; do
    word=${tag#\~}
    kind=1
    [[ $word == "$tag" ]] || kind=2
    printf "\\$(printf %03o ${#word})\\000\\00$kind\\000%s" "$word"
  done
}

# a byte, so many times
repeat() { head -c "$2" /dev/zero | tr '\0' "$1"; }

# 16 tags of 32 bytes that differ in their last
sixteen_of_32() {
  for last in a b c d e f g h i j k l m n o p; do tags "0123456789abcdef0123456789abcde$last"; done
}

# set.bin and input.bin of a seed, and a script of the same bytes in pieces of 8, after each of which every record is taken: 8 bytes
# of at most 8 tags have no more than 64 matches
random_case() {
  awk -v seed="$1" '
  function letter() { return substr(rand() < 0.5 ? "abcd" : "ABCD", 1 + int(rand() * letters), 1) }
  BEGIN {
    srand(seed); letters = 1 + int(rand() * 3); count = 1 + int(rand() * 8); set = "set"
    while (made < count && tries++ < 99) {
      word = ""; size = 1 + int(rand() * 5)
      for (i = 0; i < size; i++) word = word letter()
      mark = rand() < 0.5 ? "~" : ""; key = mark == "" ? word : mark tolower(word)
      if (!(key in seen)) { seen[key]; made++; set = set " " mark "\"" word "\""; print mark word >"words" }
    }
    print set >"script"; print "replace\nopen" >"script"
    size = 4000 + int(rand() * 400)
    for (at = 0; at < size; at += 8) {
      piece = ""
      for (i = at; i < at + 8 && i < size; i++) piece = piece letter()
      printf "%s", piece >"input.bin"
      print "feed 1 \"" piece "\"" >"script"
      for (i = 0; i < 64; i++) print "take" >"script"
    }
  }'
  tags $(cat words) >set.bin
}

# what bench writes, from the answers of such a script
lines_of_records() {
  awk '/^edition/ { print } /^record/ { print $2, $4, $5 } /^taken/ { taken += $2 } END { print "taken", taken }'
}
