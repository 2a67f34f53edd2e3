# Reads the words behind ./camera by the texts of help/, before any program is asked.
#
#   root=FOLDER me=./camera is_file=yes awk -f launcher/words.awk -- WORD ..      is_file: where the first is a file
#
# Where they are a form of help/words or help/tools, with or without a FILE behind it, it prints the program that has the
# word, and how many files stand behind the form (0 or 1). Else it prints two lines, what is wrong and where help is, and
# ends with 2. A number's bounds are those of help/WORD: 'NAME from LOW to HIGH'.

BEGIN {
  help = ENVIRON["root"] "/help/"
  me = ENVIRON["me"]
  read_forms("words", "camera_prog")
  read_forms("tools", "camera_tools")
  word = ARGV[1]
  if (!(word in form)) refuse_word(word)
  read_help(word)
  at = 2
  count = split(form[word], parts, " ")
  for (i = 2; i <= count; i++) take(parts[i])
  left = ARGC - at
  if (left == 0) answer(0)
  if (ARGV[at] ~ /^-/) refuse("no option " quoted(ARGV[at]) " here" near_option(ARGV[at]))
  if (!reads) refuse(quoted(ARGV[at]) " is too much: it reads nothing")
  if (left > 1) refuse(quoted(ARGV[at + 1]) " is too much: it reads one input" behind())
  answer(1)
}

# the lines of a list: a form, two spaces or more, and what it does
function read_forms(list, crate,   line) {
  while ((getline line < (help list)) > 0) {
    sub(/   *.*/, "", line)
    split(line, first, " ")
    form[first[1]] = line
    program[first[1]] = crate
    names[++words] = first[1]
  }
  close(help list)
}

# the text of a word as one line, and whether the word reads an input
function read_help(name,   line) {
  text = ""
  reads = 0
  while ((getline line < (help name)) > 0) {
    if (line ~ /^Reads/ && line !~ /nothing$/) reads = 1
    text = text " " line
  }
  close(help name)
  gsub(/  */, " ", text)
}

# one part of a form, at the word that comes next
function take(part) {
  if (part ~ /^\[/) {
    options[++optional] = substr(part, 2, length(part) - 2)
    if (at < ARGC && ARGV[at] == options[optional]) at++
    return
  }
  if (at >= ARGC) refuse(part (part ~ /^-/ ? "" : ", a number" bounds(part) ",") " is missing")
  if (part ~ /^-/ && ARGV[at] != part) refuse(part " comes here, and not " quoted(ARGV[at]))
  if (part !~ /^-/ && !is_number(ARGV[at], part)) refuse(part " is a number" bounds(part) ", and not " quoted(ARGV[at]))
  at++
}

# whether a text is a number in its one spelling, within the bounds of its name
function is_number(said, name) {
  return said ~ /^(0|[1-9][0-9]*)$/ && (!find_bounds(name) || at_most(low, said) && at_most(said, high))
}

function at_most(one, other) {
  return length(one) < length(other) || length(one) == length(other) && one "" <= other ""
}

function find_bounds(name) {
  if (!match(text, name ",? from [0-9]+ to [0-9]+")) return 0
  split(substr(text, RSTART, RLENGTH), bound, " ")
  low = bound[3]
  high = bound[5]
  return 1
}

function bounds(name) {
  return find_bounds(name) ? " from " low " to " high : ""
}

# check and its like read a script with its trace behind it
function behind() {
  return text ~ /behind it a/ ? ", a script with its trace behind it: cat SCRIPT TRACE | .." : ""
}

# what isn't a word: a file, an option, or a word that is spelled otherwise
function refuse_word(said,   line, kind, found) {
  if (ENVIRON["is_file"] != "") {
    while ((getline line < said) > 0 && line ~ /^(#.*)?\r?$/);
    kind = line ~ /^hal / ? "hal" : line ~ /^camera / ? "play" : line ~ /^trace / ? "convert" : "WORD"
    print quoted(said) " is a file; a word comes before it: " me " " kind " " said
  } else {
    found = said ~ /^-/ ? nearest(said, own, split("--help --version --install", own, " ")) : nearest(said, names, words)
    print (found != "" ? said ": " found "?" : "there is no " (said ~ /^-/ ? "option " : "word ") quoted(said))
  }
  print me " --help lists all words"
  exit 2
}

function near_option(said,   found) {
  found = nearest(said, options, optional)
  return found == "" ? "" : found == said ? ": the order is that of the form" : ": " found "?"
}

# the nearest of some texts: at most two signs are wrong, and fewer than half of them
function nearest(said, texts, count,   i, found, best, away) {
  best = 3
  for (i = 1; i <= count; i++) {
    away = distance(said, texts[i])
    if (away < best && 2 * away <= length(texts[i])) { best = away; found = texts[i] }
  }
  return found
}

# how many signs of one text are to be changed, dropped, added or exchanged with the next one to make the other of it
function distance(one, other,   i, j, cost, d) {
  if (length(one) > 40) return 40
  for (i = 0; i <= length(one); i++) d[i, 0] = i
  for (j = 0; j <= length(other); j++) d[0, j] = j
  for (i = 1; i <= length(one); i++) {
    for (j = 1; j <= length(other); j++) {
      cost = substr(one, i, 1) != substr(other, j, 1)
      d[i, j] = least(d[i - 1, j] + 1, least(d[i, j - 1] + 1, d[i - 1, j - 1] + cost))
      if (i > 1 && j > 1 && substr(one, i, 1) == substr(other, j - 1, 1) && substr(one, i - 1, 1) == substr(other, j, 1))
        d[i, j] = least(d[i, j], d[i - 2, j - 2] + 1)
    }
  }
  return d[length(one), length(other)]
}

function least(one, other) {
  return one < other ? one : other
}

# a word as it is shown: one line, of signs that a terminal shows, and not too long
function quoted(said) {
  gsub(/[^ -~]/, "?", said)
  return "'" (length(said) > 60 ? substr(said, 1, 57) "..." : said) "'"
}

function answer(files) {
  print program[word], files
  exit 0
}

function refuse(what) {
  print word ": " what
  print "the form is: " me " " form[word] (reads ? " [FILE]" : "") "; " me " " word " --help tells more"
  exit 2
}
