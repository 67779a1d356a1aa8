# Says in plain words why a book ends in code=..: by the forms of a journal's lines, where a line leaves its form. Read by run.

# A row is a kind of line and its words in order. word: a decimal of 32 bits; signed: one of 64 that may have a minus; bits: 8 hex digits.
# A..B: a number outside is malformed, as is not:V; clear:A..B and rising: clearing refuses other numbers; times:KEY: as often as KEY says.
# A row `card+` is a word that may stand at the end of the card line. Of several rows of a kind, the line's first word chooses; a word without = is no pair.
forms='
card cells=word,1..256 delays=word,0..30 depth=word,times:delays,clear:1..1000000000,rising
card+ share=word,not:20,clear:5..20
soil top=signed etdepth=word vadpor=word leak=word cn=word
entry cell=word life=word count=word rain=word irrig=word septic=word etmin=word pet=word amc=word head=bits
entry void cell=word life=word count=word
'

# What a kind of line is called; and where a kind has several rows, each row by its first word.
declare -A called=([card]='the first line of a card' [soil]='a line of soil numbers' [entry]='a reading or a void' [cell]='a reading' [void]='a void')
declare -A values=()
reason='' form='' extra='' others='' rest='' taken='' why='' asked='' plots='' at=0

# Prints a word of the journal, cut short, with ? for each byte that is no printable ASCII.
shown() {
    local text=${1:0:60}
    printf '%s' "${text//[^ -~]/?}"
    [ "${#1}" -le 60 ] || printf '..'
}

# What a word of the form is said to be: attribute NAME of WORD goes to found.
attribute() { # NAME WORD
    found=''
    [[ ,${2#*,}, =~ ,$1:([^,]*), ]] && found=${BASH_REMATCH[1]}
}

# Chooses the row of a kind for a line, and the words that may follow it. Where the first word chooses none, the first row is taken and the others are set by.
choose_form() { # KIND LINE
    local kind row first=${2#"${2%%[!$' \t']*}"} chosen=''
    first=${first%%[$'= \t']*}
    form='' extra='' others=''
    while read -r kind row; do
        if [ "$kind" = "$1+" ]; then
            extra+=" $row"
        elif [ "$kind" = "$1" ] && [ "${row%%[= ]*}" = "${first,,}" ]; then
            form=$row chosen=1
        elif [ "$kind" = "$1" ] && [ -z "$form" ]; then
            form=$row
        elif [ "$kind" = "$1" ]; then
            others+=$'\n'$row
        fi
    done <<< "$forms"
    [ -z "$chosen" ] || others=''
}

# A form as a person would write it.
form_shown() { # FORM
    local word text='' found
    for word in $1; do
        attribute times "$word"
        case ${word#*=} in
            bits*) text+=" ${word%%=*}=HHHHHHHH" ;;
            "$word") text+=" $word" ;;
            *) text+=" ${word%%=*}=N${found:+ (as often as $found says)}" ;;
        esac
    done
    for word in $extra; do text+=" [${word%%=*}=N]"; done
    printf '%s' "${text# }"
}

fault() {
    reason="line $line, pair $at: $1"
    [ "$at" -gt 0 ] || reason="line $line, its first word: $1"
    return 1
}

# True if a decimal without leading zeros is above another.
above() { [ "${#1}" -gt "${#2}" ] || { [ "${#1}" -eq "${#2}" ] && [[ $1 > $2 ]]; }; }

# Sets why to what is wrong with 8 hex digits.
bits_fault() { # VALUE
    if [[ $1 =~ ^[0-9a-f]{8}$ ]]; then
        why=''
    elif [[ $1 =~ ^[0-9a-fA-F]{8}$ ]]; then
        why='has upper case hex digits, where lower case should stand'
    elif [[ $1 =~ ^[0-9a-fA-F]+$ ]]; then
        why="has ${#1} of 8 hex digits (./run head METRES gives them)"
    else
        why='is not 8 hex digits (./run head METRES gives them)'
    fi
}

# Sets why to what is wrong with a number.
number_fault() { # VALUE KIND
    local digits=${1#-} most=4294967295 fits='32 bits'
    [ "$2" = word ] || most=9223372036854775807 fits='a signed 64-bit number'
    [ "$digits" = "$1" ] || [ "$2" = word ] || most=9223372036854775808
    why=''
    if [ -z "$1" ]; then
        why='has no number'
    elif [[ $digits == '' || $digits == *[!0-9]* ]]; then
        why='is no whole decimal number'
    elif [ "$1" = -0 ]; then
        why='is -0, and 0 has no minus'
    elif [ "$digits" != "$1" ] && [ "$2" = word ]; then
        why='has a minus, which it may not have'
    elif [[ $digits == 0?* ]]; then
        why='has a leading zero'
    elif above "$digits" "$most"; then
        why="does not fit ${fits}"
    fi
}

# Sets why to what is wrong with a value for a word of the form.
value_fault() { # WORD VALUE
    local kind=${1#*=} found
    kind=${kind%%,*}
    if [ "$kind" = bits ]; then bits_fault "$2"; else number_fault "$2" "$kind"; fi
    [ -z "$why" ] || return
    if [[ ,$1, =~ ,([0-9]+)\.\.([0-9]+), ]] && { above "${BASH_REMATCH[1]}" "$2" || above "$2" "${BASH_REMATCH[2]}"; }; then
        why="is outside ${BASH_REMATCH[1]}..${BASH_REMATCH[2]}"
    fi
    attribute not "$1"
    [ -z "$found" ] || [ "$found" != "$2" ] || why="is never written out; leave the key out, $found is what a card without it means"
}

# The one space between two pairs.
take_space() { # KEY
    case $rest in
        '') fault "the line ends after $(shown "$taken"), where $1 should follow${asked:+ ($asked)}" ;;
        *[!$' \t']*)
            case $rest in
                ' '[!$' \t']*) rest=${rest# } ;;
                '  '*) fault "more than one space stands before it" ;;
                *) fault "a tab stands before it, where one space should" ;;
            esac
            ;;
        *) fault "the line ends in a blank after $(shown "$taken"), where $1 should follow${asked:+ ($asked)}" ;;
    esac
}

# Says what stands at a place where another word should.
misplaced() { # KEY TOKEN
    local key=${2%%=*} kind row
    if [ -z "$2" ]; then
        case $rest in
            *[!$' \t']*) fault "a blank stands before $1" ;;
            *) fault "there are blanks only, where $1 should stand" ;;
        esac
        return
    fi
    if [ -z "$taken" ]; then
        while read -r kind row; do
            [ -n "$kind" ] && [[ $kind != *+ ]] && [ "$kind" != "$now" ] && [ "${row%%[= ]*}" = "$key" ] || continue
            fault "$(shown "$2") starts ${called[$key]:-${called[$kind]:-another kind of line}}, where ${called[$now]} should stand$(soil_lines)"
            return
        done <<< "$forms"
    fi
    if [ -n "$others" ] && [[ " $form" != *" ${key,,}="* ]]; then
        fault "$(shown "$2") starts no line that a journal has, where ${called[$now]} should stand"
    elif [ "${key,,}" = "${1%=}" ] && [ "$key" != "${1%=}" ]; then
        fault "$(shown "$key") is not lower case, where $1 should stand"
    elif [[ $2 != *=* ]]; then
        fault "$(shown "$2") has no =, where $1 should stand"
    elif [[ " $form $extra" != *" $key="* ]]; then
        fault "$(shown "$key")= is no key of this line, where $1 should stand"
    elif [ -n "${values[$key]-}" ]; then
        fault "$key= stands once more, where $1 should stand"
    elif [[ $rest == *" $1"* ]]; then
        fault "$key= stands before $1, in another order"
    else
        fault "$1 is missing, $key= stands in its place${asked:+ ($asked)}"
    fi
}

# Takes the next pair of the line, or says why it is not the one that should stand there.
take_pair() { # WORD OF THE FORM
    local key=${1%%=*} token
    [ "$key" = "$1" ] || { at=$((at + 1)) key="$key="; }
    [ -z "$taken" ] || take_space "$key" || return 1
    token=${rest%%[$' \t']*}
    if [ "$key" = "$1" ]; then
        [ "$token" = "$key" ] || misplaced "$key" "$token" || return 1
    else
        [[ $token == "$key"* ]] || misplaced "$key" "$token" || return 1
        value_fault "$1" "${token#"$key"}"
        [ -z "$why" ] || fault "$(shown "$token") $why" || return 1
        values[${key%=}]+="${values[${key%=}]+ }${token#"$key"}"
    fi
    rest=${rest:${#token}} taken=$token
}

# True if the next word of the line is this key, however it is spaced or spelt.
comes() { # KEY
    local next=${rest#"${rest%%[!$' \t']*}"}
    next=${next%%[!a-zA-Z]*}
    [ "${next,,}" = "$1" ]
}

# Takes the words that may stand behind the last one of the form, and says which of them stands where the line should end.
take_extra() {
    local word
    for word in $extra; do
        ! comes "${word%%=*}" || take_pair "$word" || return 1
    done
    for word in $extra; do
        comes "${word%%=*}" || continue
        at=$((at + 1))
        [ -z "${values[${word%%=*}]-}" ] || fault "${word%%=*}= stands once more, where the line should end" || return 1
        fault "${word%%=*}= stands behind ${taken%%=*}=, in another order" || return 1
    done
}

# Nothing stands behind the last pair.
take_end() {
    [ -n "$rest" ] || return 0
    [[ $rest == *" ${asked##* }"* ]] || asked=''
    reason="line $line: more stands behind the last pair, $(shown "$taken"):$(shown "$rest")${asked:+ ($asked)}"
    [[ $rest == *[!$' \t']* ]] || reason="line $line: a blank stands at its end, after $(shown "$taken")"
    return 1
}

# Goes through a line by its form; reason stays empty where it has it.
walk() { # KIND LINE
    local now=$1 word found times
    reason='' rest=$2 at=0 taken='' asked='' values=()
    choose_form "$1" "$2"
    for word in $form; do
        attribute times "$word"
        times=1
        if [ -n "$found" ]; then
            times=${values[$found]}
            asked="$found=$times asks for $times ${word%%=*}="
        fi
        while [ "$times" -gt 0 ]; do
            take_pair "$word" || return 0
            times=$((times - 1))
        done
    done
    take_extra || return 0
    take_end || return 0
}

# How many lines of soil numbers the card asks for, as a remark.
soil_lines() {
    case $plots in
        '') ;;
        1) printf ' (the card has 1 plot, so 1 line of soil numbers must follow it)' ;;
        *) printf ' (the card has %s plots, so %s lines of soil numbers must follow it)' "$plots" "$plots" ;;
    esac
}

# The text of a line; a NUL, which bash cannot hold, becomes another byte that no form has.
text_of() { # LINE
    head -n "$1" "$room/journal" | tail -n "+$1" | tr '\000' '\001'
}

# Which kind of line stands at a place; plots is set from the card.
find_kind() {
    kind=card plots=''
    [ "$line" -gt 1 ] || return
    walk card "$(text_of 1)"
    plots=${values[cells]-0}
    if [ "$line" -le $((plots + 1)) ]; then kind=soil; else kind=entry; fi
}

# Sets reason for a malformed line.
line_reason() {
    local text kind plots row ends=''
    if [ ! -s "$room/journal" ]; then reason="$name is empty, where a card should stand"; return; fi
    find_kind
    text=$(text_of "$line")
    if [ "$(tr -cd '\n' < "$room/journal" | wc -c)" -lt "$line" ]; then
        if [ -z "$text" ]; then reason="line $line is missing$(soil_lines)"; return; fi
        ends='has no LF at its end'
    elif [[ $text == *$'\r' ]]; then
        ends='ends in CR LF, where LF alone should stand'
    fi
    case $text in
        $'\xef\xbb\xbf'*) reason="line $line starts with a byte order mark" ;;
        $'\xff\xfe'* | $'\xfe\xff'*) reason="line $line starts with a byte order mark of UTF-16, and a journal is plain ASCII" ;;
        '' | $'\r') reason="line $line is empty, where ${called[$kind]} should stand" ;;
        *) walk "$kind" "${text%$'\r'}" ;;
    esac
    if [ -z "$reason" ]; then
        reason="line $line ${ends:-has not its form}"
    elif [ -n "$ends" ]; then
        reason+="; it also $ends"
    fi
    choose_form "$kind" "$text"
    reason+=$'\n'"the form of line $line: $(form_shown "$form")"
    while read -r row; do
        [ -z "$row" ] || reason+=", or $(form_shown "$row")"
    done <<< "$others"
}

# Sets reason for a card that clearing refuses.
card_reason() {
    local word value before found k what
    walk card "$(text_of 1)"
    for word in $form $extra; do
        attribute clear "$word"
        [ -n "$found" ] || continue
        before='' k=0
        for value in ${values[${word%%=*}]-}; do
            k=$((k + 1)) what=${word%%=*}
            [[ $word != *,times:* ]] || what+=" $k"
            if [ "$value" -lt "${found%..*}" ] || [ "$value" -gt "${found#*..}" ]; then
                reason="the card is refused: in line 1 $what is $value, outside $found"
                return
            elif [[ $word == *,rising* ]] && [ -n "$before" ] && [ "$value" -le "$before" ]; then
                reason="the card is refused: in line 1 $what is $value, not above the one before it, $before"
                return
            fi
            before=$value
        done
    done
    reason='the card is refused: a number in line 1 is out of its range'
}

# Says why the book's last line is what it is.
tell_reason() { # LAST LINE
    local line=${1##*=}
    case $1 in
        'code=12 line=0') reason='the journal is longer than 65,536 bytes' ;;
        'code=12 line='*) line_reason ;;
        code=1) card_reason ;;
        *) reason="clearing refuses the card with number ${1#code=}" ;;
    esac
    while IFS= read -r line; do say "$line"; done <<< "$reason"
}
