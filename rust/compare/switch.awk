# Puts edits into a Rust file so that the program chooses one of them, by its number, when it runs. Reads the file, as rustfmt
# lays it out, and then the edits, each named NUMBER.NAME.edit. The function around an edit gets the body
#     if crate::mutant() == NUMBER { the edited body } else { the body }

FNR == 1 { files++ }
files == 1 { line[++lines] = $0; next }
FNR == 1 { name = FILENAME; sub(/.*\//, "", name); number = name + 0 }
/^old: / { old[number] = substr($0, 6) }
/^new: / { new[number] = substr($0, 6); place(number) }

END {
  for (k = 1; k <= lines; k++) {
    if (k in closes)
      print "}"
    print line[k]
    if (k in edits)
      print_bodies(k)
  }
}

# The one line that has the old text, and the function around it.
function place(number, k, at, rest, count) {
  for (k = 1; k <= lines; k++)
    for (rest = line[k]; (at = index(rest, old[number])) > 0; rest = substr(rest, at + 1)) {
      count++
      where[number] = k
    }
  if (count != 1)
    return refuse("the old text does not occur exactly once")
  for (k = where[number]; k > 0; k--)
    if (line[k] ~ /^ *(pub(\([a-z]+\))? )?(const )?fn / && around(k, number))
      return
  refuse("the old text is in no function")
}

# Whether the function that begins in this line has the edit in its body.
function around(first, number, indent, head, end) {
  indent = line[first]
  sub(/[^ ].*/, "", indent)
  for (head = first; line[head] !~ /\{$/; head++)
    ;
  for (end = head; end < lines && line[end] != indent "}"; end++)
    ;
  if (where[number] <= head || where[number] >= end)
    return 0
  edits[head] = edits[head] " " number
  ends[head] = end
  closes[end] = 1
  return 1
}

function print_bodies(head, numbers, count, n, k, at, text) {
  count = split(edits[head], numbers)
  for (n = 1; n <= count; n++) {
    print "if crate::mutant() == " numbers[n] " {"
    for (k = head + 1; k < ends[head]; k++) {
      text = line[k]
      if (k == where[numbers[n]]) {
        at = index(text, old[numbers[n]])
        text = substr(text, 1, at - 1) new[numbers[n]] substr(text, at + length(old[numbers[n]]))
      }
      print text
    }
    print "} else"
  }
  print "{"
}

function refuse(why) {
  print name ": " why > "/dev/stderr"
}
