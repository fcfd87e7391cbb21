# Numbers of 64 bits, from the 16 hex digits of their bits, for other awk programs (awk -f tools/decimal.awk -f ...). Every step is exact: sums and products
# of whole numbers below 2^53, halvings and doublings.

function digit(c) { return index("0123456789abcdef", c) - 1 }
function from_hex(digits,    n, i) {
    n = 0
    for (i = 1; i <= length(digits); i++) n = 16 * n + digit(substr(digits, i, 1))
    return n
}
function exponent(bits) { return from_hex(substr(bits, 1, 3)) % 2048 }
function finite(bits) { return exponent(bits) < 2047 }

# the number itself, where it is finite
function number(bits,    e, x) {
    e = exponent(bits)
    x = from_hex(substr(bits, 4))
    if (e > 0) x += 4503599627370496
    else e = 1
    for (; e > 1075; e--) x *= 2
    for (; e < 1075; e++) x /= 2
    return digit(substr(bits, 1, 1)) < 8 ? x : -x
}

# in decimal: the fewest digits that read back to the same bits; inf, -inf, and nan for every NaN
function decimal(bits,    sign, x, n, s, e) {
    sign = digit(substr(bits, 1, 1)) < 8 ? "" : "-"
    if (!finite(bits)) return bits ~ /^.ff0*$/ ? sign "inf" : "nan"
    x = number(bits)
    if (x == 0) return sign "0"
    for (n = 0; n < 16; n++) {
        s = sprintf("%." n "e", x)
        if (s + 0 == x) break
    }
    s = sprintf("%." n "e", x)
    e = substr(s, index(s, "e") + 1) + 0
    # without an exponent where that is no longer than a line
    if (e >= -5 && e < 17) s = sprintf("%." (n > e ? n - e : 0) "f", x)
    return s
}
