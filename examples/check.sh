#!/bin/sh
# Checks a rule against a model, both written as a person would: the rule as text, the model as bytes in hexadecimal.
# They are those below, or those of the two arguments:
#
#     examples/check.sh ["RULE" ["MODEL"]]
#
# Needs rulecheck and ruletext, which `tools/programs` in the repository's root puts into target/bin. RULECHECK and
# RULETEXT name others.
set -euf
root=$(CDPATH='' cd -- "$(dirname -- "$0")/.." && pwd)
rulecheck=${RULECHECK:-$root/target/bin/rulecheck}
ruletext=${RULETEXT:-$root/target/bin/ruletext}

# p0, then any number of p1, then p2
text=${1-"{p0;{{p1}[*];p2}}"}

# each state: its kind, its letter, whether it is initial, and the set of its successors in 8 bytes, lowest first
model=${2-"20 01 01  02 00 00 00 00 00 00 00
           20 02 00  06 00 00 00 00 00 00 00
           20 04 00  01 00 00 00 00 00 00 00"}

stop() {
    echo "check.sh: $1" >&2
    exit 2
}

count() {
    echo $#
}

bytes() {
    for byte in "$@"; do
        printf "\\$(printf %03o "0x$byte")"
    done
}

# The line without its newline. An answer that broke off has none, and is no answer.
whole_line() {
    IFS= read -r line && printf %s "$line"
}

for program in "$rulecheck" "$ruletext"; do
    [ -x "$program" ] || stop "there is no program $program: run 'tools/programs' in $root"
done

rule=$(printf %s "$text" | "$ruletext" | whole_line) || stop "ruletext gave no answer"
case $rule in
refused*) stop "the text $text: $rule" ;;
esac

# All is looked at before anything is checked: a verdict on a part of it would be one on another model.
for byte in $rule $model; do
    case $byte in
    [0-9A-Fa-f][0-9A-Fa-f]) ;;
    *) stop "no byte of two hexadecimal digits: $byte" ;;
    esac
done

verdict=$(bytes "$(printf %02x "$(count $rule)")" $rule $model | "$rulecheck" | whole_line) ||
    stop "rulecheck gave no answer"
printf '%s\n' "$verdict"
