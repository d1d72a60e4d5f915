#!/bin/sh
# What a terminal shows of a fault: the line, with bytes that no terminal shows as escapes and with marks where it was cut, a caret, and a few words; and
# what it says of a store that is refused, and of a file that cannot be opened.
#
# usage: terminal.sh CNC
# It needs `script`, of util-linux, which makes a terminal.
set -eu
cnc=$(realpath "${1:?the program}")
room=$(mktemp -d)
trap 'rm -rf "$room"' EXIT
cd "$room"
tried=0

# shown WORD..: what a terminal shows of a command, without its first line and without what a terminal adds at the end of a line
shown() {
    NO_COLOR=1 script -qec "$cnc $*" /dev/null | tr -d '\r' | sed -n '2,3p'
}

# compare WHAT: the two lines that were shown, with those on the standard input
compare() {
    cat >right
    if ! cmp -s found right; then
        echo "terminal: $1 is shown as" >&2
        cat found >&2
        exit 1
    fi
    tried=$((tried + 1))
}

# in_script LINE: this line of a script, as printf writes it
in_script() {
    rm -rf store
    "$cnc" create graph store >created
    printf "$1\n" >script
    shown run store script >found
}

# in_graph TEXT: this text of a graph
in_graph() {
    printf "$1" >text
    shown create text other >found
}

cat >graph <<'G'
[out: i]; <t: i>; <t> :: (one); (one) -> [out]; env -> <t>; [out] -> env;
step one(k) { read { } write { put [out: k] = k; } }
G

in_script 'tag <t: 1>\r'
compare 'a carriage return' <<'R'
  tag <t: 1>\r
            ^ this is a carriage return: a line ends with a line feed alone
R
in_script '\ttag <t: 1>'
compare 'a tab' <<'R'
  \ttag <t: 1>
  ^ this is a tab: a blank is a space
R
in_script 'tag <t: \033>'
compare 'a control byte' <<'R'
  tag <t: \x1b>
          ^ this is a control byte
R
in_script 'tag <t: \377>'
compare 'a byte that is no text' <<'R'
  tag <t: \xff>
          ^ this byte is not ASCII
R
in_script 'tag <t: 2*3>'
compare 'an expression' <<'R'
  tag <t: 2*3>
           ^ a number belongs here, and no expression
R
in_script '  tag <t: k>'
compare 'a name in place of a number' <<'R'
    tag <t: k>
            ^ a number belongs here
R
in_script 'tag <t: 1> # one'
compare 'a comment' <<'R'
  tag <t: 1> # one
             ^ there are no comments
R
in_script '  tog <t: 1>'
compare 'another word' <<'R'
    tog <t: 1>
    ^ this is no put, tag, get or run
R
in_script 'tag <t: 99999999999999999999>'
compare 'a number of more than 64 bits' <<'R'
  tag <t: 99999999999999999999>
  ^ a number has more than 64 bits
R
in_graph '[a: i];\n  [abcdefghijabcdefghijabcdefghijabc: i];\n'
compare 'a name that is too long' <<'R'
    [abcdefghijabcdefghijabcdefghijabc: i];
     ^ a name has at most 32 bytes
R
in_graph '[a: i]; # items\n'
compare 'a comment in a graph' <<'R'
  [a: i]; # items
          ^ there are no comments
R
in_graph "$(printf '%70s' '')[a i]; $(printf '%70s' '')[b];\n"
{
    printf '  ...%57s[a i];%57s...\n' '' ''
    printf '%65s^ no graph goes on so\n' ''
} >long
compare 'a long line' <long

# refused WORD..: the same of a command whose store, or file, is refused: one line
refused() {
    shown "$@" | sed -n '1p' >found
}

refused create nowhere other
compare 'a file that is not there' <<'R'
  No such file or directory (os error 2)
R
refused create graph store
compare 'a store that is there' <<'R'
  A file `A` or `B` is there and not empty. Use another directory, or the store that is there, if one was made.
R
mkdir empty
refused report empty
compare 'an empty directory' <<'R'
  Neither file holds a whole store: none was made, `create` was cut off, or a file was changed.
R
cp -r store changed
printf '\377' | dd of=changed/A bs=1 seek=30 conv=notrunc 2>dd
refused report changed
compare 'a file that was changed' <<'R'
  The part of the file that begins at this byte is not one of a store.
R
echo "$tried lines of a terminal are right"
