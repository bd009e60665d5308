//! What `labelbook help` prints.

pub const GENERAL: &str = "\
labelbook keeps label books in files: up to 1,024 names of set-ups, each with a score. A bench's
panel offers the names with the highest scores that begin with what a student has typed.

  labelbook check FILE                  whether FILE is a book; its entries and bytes
  labelbook list FILE                   the entries as lines SCORE NAME, in name order
  labelbook build FILE [LINES]          makes a book from such lines, in any order
  labelbook set FILE SCORE NAME         adds a name, or gives it a new score
  labelbook withdraw FILE NAME          takes a name out
  labelbook top FILE K [PREFIX]         the best K names that begin with PREFIX
  labelbook page FILE                   the page for the wall: all names, the highest score first
  labelbook merge FILE OTHER [-o OUT]   adds the names of the book OTHER
  labelbook trie FILE OUT               makes the book's trie, for panels that use one
  labelbook convert FILE [-o OUT]       makes an old book one of today, or one of today an old one
  labelbook help [COMMAND]              this text, or more about a command
  labelbook --version

A first book:

  labelbook build term.book /dev/null
  labelbook set term.book 12 rl
  labelbook set term.book 9 'rc step'
  labelbook set term.book 7 '10 µF'
  labelbook top term.book 5 r

Names are 1 to 48 bytes long. Letters, digits, punctuation and spaces of ASCII (20 to 7E) have one
byte each; µ (C2 B5) and Ω (CE A9) have two, as in UTF-8. Others are refused, also those that look
alike: the Greek small mu and the ohm sign of Unicode. In a shell, a name with spaces stands in
quotes, and one that begins with - behind the argument --, which ends the options:

  labelbook set term.book 3 -- '-3 dB'

Scores are whole numbers from 0 to 4294967295. At equal scores the earlier name is offered first.

As a file, - is standard input where it is read, and standard output where it is made, so that
commands can be joined (a file that is really called - is ./-):

  labelbook list old.book | grep -v test | labelbook build new.book

Saving. set, withdraw, merge and convert change FILE: a new file is written beside it, brought to
the disk, and renamed to FILE. Whatever happens, FILE is the book as it was or the new one, whole.
Meanwhile FILE is locked (flock), so that of two edits at the same time, from two windows, both are
kept; reading needs no lock. A symbolic link is followed, and the file keeps its mode; a second name
of the same file (a hard link) keeps the book as it was. A crash can leave a file .labelbook-*.tmp
in the folder; while no labelbook runs there, such files can be deleted.

Old books. A book that labelbook wrote up to version 1.5 (its first byte is 21 in hexadecimal) is
read by convert alone, which makes it a book of version 22. Every other command refuses it, 10.

  labelbook convert term.book

Exit status:
  0         done
  1 to 10   refused; the message says the number and why
  64        the command line is wrong
  65        the lines for build are wrong
  74        a file cannot be read or written
  141       whoever read the output has gone (nothing is said)
Unless it is 0, no file has changed. There is one exception, and the message says so: 74 after the
new file was put in place, where the system then could not make sure that it outlasts a power cut.
";

pub const CHECK: &str = "\
labelbook check FILE

Says how many entries the book in FILE has, and how many bytes:

  4 entries, 43 bytes

A second line says if bytes stand behind the book. They are not part of it, and the next edit of
FILE leaves them out. Where FILE is no book, or was damaged or cut, the exit status is 1; where it
is an old book, of version 21, it is 10.
- as FILE is standard input.
";

pub const LIST: &str = "\
labelbook list FILE

Prints a line SCORE NAME for each entry, in name order: the score, one space, and the name to the
end of the line. `labelbook build` makes the same book of these lines again.
- as FILE is standard input.
";

pub const BUILD: &str = "\
labelbook build FILE [LINES] [--force]

Makes a book, FILE, from the lines SCORE NAME in the file LINES, in any order: a score, one space,
and the name to the end of the line. Without LINES, or with -, the lines come from standard input.
- as FILE is standard output.

  labelbook build term.book term.txt
  labelbook build empty.book /dev/null

A file that is there already is not replaced, unless with --force; and not by a book without names,
since then the command that should have written the lines has probably failed.

A wrong line is named by its number, and no book is made: an empty line or one that is no score and
name, or a name for the second time (exit status 65); a name that is not allowed (2); a name past
the 1,024th (5). Lines end in LF; for a text file from Windows:

  tr -d '\\r' < term.txt | labelbook build term.book
";

pub const SET: &str = "\
labelbook set FILE SCORE NAME

Adds NAME to the book in FILE, or gives it the new score if it is there.

  labelbook set term.book 9 'rc step'
  labelbook set term.book 9 '4.7 kΩ'
  labelbook set term.book 3 -- '-3 dB'

Refused: 10, FILE is an old book; 1, FILE is no book; 2, NAME is not allowed; 5, NAME is new and the
book has 1,024 names. FILE must be there; `labelbook build FILE /dev/null` makes a book without
names.
";

pub const WITHDRAW: &str = "\
labelbook withdraw FILE NAME

Takes NAME out of the book in FILE.

Refused: 10, FILE is an old book; 1, FILE is no book; 2, NAME is not allowed; 4, the book does not
hold NAME.
";

pub const TOP: &str = "\
labelbook top FILE K [PREFIX]

Prints the best K names, from 1 to 9, that begin with PREFIX, or all if there are fewer, as lines
SCORE NAME, the highest score first. Without PREFIX it is the best of all names. FILE is a book, or
the trie of one, which gives the same lines. - as FILE is standard input.

Refused: 10, FILE is an old book; 1, FILE is neither; 2, PREFIX is not allowed; 3, K is not 1 to 9.
";

pub const PAGE: &str = "\
labelbook page FILE

Prints the page for the wall: all names of the book in FILE, the highest score first, at equal
scores the earlier name first.

  NAME                               SCORE
  rl                                    12
  rc                                     9
  rc step                                9

  labelbook page term.book | lp

Every line has 40 bytes: 28 of the name, two spaces, and 10 of the score. A longer name goes on in a
further line. µ and Ω are two bytes each: a line looks shorter by one sign for each, and where the
28 bytes end inside one, its halves stand on two lines and cannot be read.
- as FILE is standard input.
";

pub const MERGE: &str = "\
labelbook merge FILE OTHER [-o OUT [--force]]

Adds the names of the book OTHER to the book in FILE. A name that both have keeps FILE's score.
With -o OUT, FILE stays as it is and the merged book is made as OUT; a file OUT that is there
already is replaced only with --force.
- is standard input as OTHER, and with -o as FILE instead; as OUT it is standard output.

  labelbook merge bench.book term.book

Refused: 10, FILE or OTHER is an old book; 1, FILE or OTHER is no book; 5, there would be more than
1,024 names.
";

pub const TRIE: &str = "\
labelbook trie FILE OUT [--force]

Makes OUT, the trie of the book in FILE: the same names and scores, in the form from which slow
panels complete. It does not follow later edits of FILE; make it again. A file OUT that is there
already is replaced only with --force. `labelbook top OUT K PREFIX` reads it.
- is standard input as FILE, and standard output as OUT.
";

pub const CONVERT: &str = "\
labelbook convert FILE [-o OUT [--force]]

Converts the book in FILE: an old one, of version 21, to version 22, and one of version 22 to an old
one, for a panel that reads no other. Its first byte says which it is. It keeps its names and
scores, and for whatever is typed a panel offers the same. What was done is said on standard error:

  labelbook convert term.book
  labelbook: term.book: converted from version 21 to version 22; 4 entries, 43 bytes

Converted once more it is again as it was, byte for byte. So convert each book once: one of version
21 is read by no other command, and `labelbook check FILE` refuses it with 10.

With -o OUT, FILE stays as it is and the converted book is made as OUT; a file OUT that is there
already is replaced only with --force.
- is standard input as FILE, with -o, and standard output as OUT.

Refused: 1, FILE is no book of either version, or a damaged one.
";
