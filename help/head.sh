# A head between metres and the 8 hex digits of its 32 bits, in whole numbers only. Read by run.

# Sets um to the greatest whole µm not above size / 2^places metres; sign is - below zero.
floor_um() { # SIGN SIZE PLACES
    local millions=$(($2 * 1000000))
    um=0
    [ "$3" -gt 62 ] || um=$((millions >> $3))
    if [ -n "$1" ]; then
        [ "$3" -le 62 ] && [ $((um << $3)) -eq "$millions" ] || [ "$millions" -eq 0 ] || um=$((um + 1))
        [ "$um" -eq 0 ] || um=-$um
    fi
}

# Prints the bits nearest to a number of metres. No tie can come: up to 10,000 m the middle of two floats has 11 places after the point or more.
bits_of() { # SIGN METRES NANOS WORD
    local n=$(($2 * 1000000000 + 10#$3)) places=0 size over bits um
    if [ "$n" -eq 0 ]; then
        printf -v bits '%08x' $((${#1} << 31))
        hand_over <<< "$bits"
        return
    fi
    while [ $((n >> 23)) -lt 1000000000 ]; do n=$((n << 1)) places=$((places + 1)); done
    size=$((n / 1000000000)) over=$((n % 1000000000))
    [ $((2 * over)) -lt 1000000000 ] || size=$((size + 1))
    floor_um "$1" "$size" "$places"
    [ "$size" -lt 16777216 ] || size=8388608 places=$((places - 1))
    printf -v bits '%08x' $(((${#1} << 31) + ((150 - places) << 23) + size - 8388608))
    hand_over <<< "$bits"
    [ "$over" -eq 0 ] || say "no 32-bit float is $4 m exactly; $bits is the nearest, and the gateway takes it as $um µm"
}

# Prints size / 2^places without rounding: size x 5^places has its point that many digits from the right.
exact() { # SIZE PLACES
    local -a limbs=("$1")
    local digits='' i k carry
    for ((i = 0; i < $2; i++)); do
        carry=0
        for k in "${!limbs[@]}"; do
            carry=$((limbs[k] * 5 + carry))
            limbs[k]=$((carry % 1000000000)) carry=$((carry / 1000000000))
        done
        [ "$carry" -eq 0 ] || limbs+=("$carry")
    done
    for k in "${limbs[@]}"; do
        printf -v k '%09d' "$k"
        digits=$k$digits
    done
    while [ "${#digits}" -le "$2" ]; do digits=0$digits; done
    i=$((${#digits} - $2))
    digits=${digits:0:i}.${digits:i}
    while [[ $digits == *0 ]]; do digits=${digits%0}; done
    while [[ $digits == 0[0-9]* ]]; do digits=${digits#0}; done
    printf '%s' "${digits%.}"
}

# Prints what the bits of a head mean.
meaning_of() { # HEXDIGITS
    local bits=$((16#$1)) rest power size sign='' um
    rest=$((bits & 0x7fffffff)) power=$((bits >> 23 & 255)) size=$((bits & 0x7fffff))
    [ "$rest" -eq "$bits" ] || sign=-
    case $1 in
        f149f2ca) hand_over <<< dry ;;
        7149f2ca) hand_over <<< inactive ;;
        *)
            if [ "$rest" -gt $((0x461c4000)) ]; then
                hand_over <<< unusable
                return
            fi
            if [ "$power" -eq 0 ]; then power=1; else size=$((size + 8388608)); fi
            floor_um "$sign" "$size" $((150 - power))
            hand_over <<< "$sign$(exact "$size" $((150 - power))) m, $um µm"
            ;;
    esac
}

# Eight hex digits are bits: without a point, 8 digits that do not start with 0 are more than 10,000 m, and metres have no leading zero.
head_word() { # WORD
    local size=${1#-} whole part
    case $1 in
        dry) hand_over <<< f149f2ca; return ;;
        inactive) hand_over <<< 7149f2ca; return ;;
    esac
    if [[ $1 =~ ^[0-9a-f]{8}$ ]]; then meaning_of "$1"; return; fi
    [[ ! $1 =~ ^[0-9a-fA-F]{8}$ ]] || wrong "the hex digits of a head are lower case: ${1,,}"
    [[ $size =~ ^[0-9]+(\.[0-9]+)?$ ]] || wrong "$1 is no head: give metres such as 8.75, 8 hex digits, dry or inactive"
    whole=${size%.*} part=''
    [ "$whole" = "$size" ] || part=${size#*.}
    [[ $whole != 0?* ]] || wrong "$1 has a leading zero"
    [ "${#part}" -le 9 ] || wrong "$1 has more than 9 digits after the point"
    part=${part}000000000
    part=${part:0:9}
    if [ "${#whole}" -gt 5 ] || [ "$whole" -gt 10000 ] || { [ "$whole" -eq 10000 ] && [ $((10#$part)) -gt 0 ]; }; then
        wrong "$1 is more than 10,000 m in size, which the gateway cannot use"
    fi
    bits_of "${1%"$size"}" "$whole" "$part" "$1"
}
