# Which record of a scene is the first bad one, and which rule it breaks (01, "Scenes and walkprint"; crate `scene_rules` has the rules that are proved):
#
#     od -An -v -tx1 SCENE | awk -f tools/decimal.awk -f tools/rules.awk
#
# prints the record's number and a sentence, or nothing of a scene whose records are all good. It is there to explain: the program decides.

# ---- the fields of a record, whose bytes are two hex digits each in b[0] to b[63]

function u32(at) { return from_hex(b[at + 3] b[at + 2] b[at + 1] b[at]) }
function big(n) { return sprintf("%.0f", n) } # in all its digits
function f64(at) { return b[at + 7] b[at + 6] b[at + 5] b[at + 4] b[at + 3] b[at + 2] b[at + 1] b[at] }

# ---- each rule's sentence, or nothing where it is kept

function order_broken(k) {
    if (k < 1 || k > 6) return "kind " k "; the kinds are 1 request, 2 body, 3 window, 4 shape, 5 state and 6 fill"
    if (k < 4 && k <= last) return "a second " kind[k] "; " ORDER
    if (last < 3 && k != last + 1) return kind[k] " before the " kind[last + 1] "; " ORDER
    if (k < last) return kind[k] " after a " kind[last] "; " ORDER
    return ""
}
function zeros_broken(k,    i) {
    for (i = 1; i <= 3; i++) if (b[i] != "00") return "byte " i " of the record is not zero; the three behind its kind are"
    for (i = unused[k]; i < 64; i++) if (b[i] != "00") return "byte " i " of the record is not zero; a " kind[k] " uses none from byte " unused[k] " on"
    return ""
}
function window_broken(    i, cells) {
    cells = 1
    for (i = 1; i <= 3; i++) {
        if (u32(16 + 4 * i) > 256) return "the window's size in " axis[i] " is " big(u32(16 + 4 * i)) ", above 256"
        cells *= u32(16 + 4 * i)
    }
    return cells > 4096 ? "the window has " cells " cells, above 4096" : ""
}
function box_broken(    i, end, bits) {
    for (end = 0; end < 2; end++) for (i = 1; i <= 3; i++) {
        bits = f64(24 * end + 8 * i)
        if (!finite(bits)) return "the box's " side[end] " " axis[i] " is " decimal(bits) "; a box's numbers are finite"
        if (number(bits) < -16 || number(bits) > 16) return "the box's " side[end] " " axis[i] " is " decimal(bits) "; a box's numbers are from -16 to 16"
    }
    for (i = 1; i <= 3; i++) if (number(f64(8 * i)) > number(f64(24 + 8 * i)))
        return "the box's min " axis[i] ", " decimal(f64(8 * i)) ", is above its max " axis[i] ", " decimal(f64(24 + 8 * i))
    return ""
}
function shape_broken(n) {
    if (n > 255) return "shape " big(n) " is above 255"
    if (n + 1 < shapes) return "shape " n " after shape " (shapes - 1) "; the shapes' numbers do not fall"
    if (n + 1 == shapes && in_shape == 16) return "box 17 of shape " n "; a shape has at most 16"
    if (boxes == 256) return "box 257; a scene has at most 256"
    return box_broken()
}
function state_broken(n,    permission) {
    if (states == 256) return "state " big(n) " after state 255, which is the last that can be"
    if (n != states) return "state " big(n) " where state " states " was awaited; the states count from 0"
    permission = from_hex(b[8])
    return permission > 7 ? "permission " permission " is above 7, the sum of 1 (occupied), 2 (support) and 4 (collides)" : ""
}
function rule_broken(k, n) {
    if (k == 1) return n > 512 ? "budget " big(n) " is above 512" : ""
    if (k == 4) return shape_broken(n)
    if (k == 5) return state_broken(n)
    if (n != 0) return "the number n of a " kind[k] " is 0, not " big(n)
    return k == 3 ? window_broken() : ""
}

# ---- record by record

function tell(why) { print record " " why; told = 1; exit }
function take(    k, n, why) {
    k = from_hex(b[0]); n = u32(4)
    why = order_broken(k)
    if (why == "") why = zeros_broken(k)
    if (why == "") why = rule_broken(k, n)
    if (why != "") tell(why)
    if (k == 4) { boxes++; in_shape = n + 1 == shapes ? in_shape + 1 : 1; shapes = n + 1 }
    if (k == 5) states++
    last = k; record++; count = 0
}

BEGIN {
    ORDER = "the order is request, body, window, shapes, states, fills"
    split("request body window shape state fill", kind, " ")
    split("64 56 32 56 9 40", unused, " ")
    split("x y z", axis, " ")
    side[0] = "min"; side[1] = "max"
    last = record = count = shapes = in_shape = boxes = states = told = 0
}
{ for (i = 1; i <= NF; i++) { b[count++] = $i; if (count == 64) take() } }
END {
    if (told) exit
    if (count > 0) tell("the scene ends within a record, after " count " of its 64 bytes")
    if (last < 3) tell("the scene ends without a " kind[last + 1] "; " ORDER)
}
