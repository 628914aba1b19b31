# What reading the requests of the program read_vectors gives, by an implementation of its own, written from paper 01 ("Message form" and
# "Numbered returns"). Each line is 'read KIND ID COUNT' or 'refused NUMBER OFFSET'.
function number_at(p, w,    i, v) {
    v = 0
    for (i = 0; i < w; i++) v = v * 256 + s[p + i]
    return v
}

function refuse(number, at) { verdict = "refused " number " " at; return 0 }

# A field at p in an enclosure that ends at e: cut is 4. It leaves its tag, the start of its contents and their length.
function field(p, e) {
    if (p + 3 > e) return refuse(4, p)
    tag = s[p]; len = number_at(p + 1, 2); start = p + 3
    if (start + len > e) return refuse(4, p)
    return 1
}

function head_field(p, n, want, length_wanted) {
    if (!field(p, n)) return 0
    if (tag != want) return refuse(5, p)
    if (len != length_wanted) return refuse(6, p)
    return 1
}

# The content of a binding that ends at e.
function content(p, e) {
    if (!field(p, e)) return 0
    if (kind == 3) {
        if (tag < 33 || tag > 36) return refuse(5, p)
        if (tag == 34 ? len > 255 : len != 4) return refuse(6, p)
    } else {
        if (tag != 32) return refuse(5, p)
        if (len != 0) return refuse(6, p)
    }
    if (start + len < e) return refuse(6, start + len)
    return 1
}

function binding(p, n,    e, inner) {
    if (!field(p, n)) return 0
    if (tag != 16) return refuse(5, p)
    e = start + len; inner = start
    if (!field(inner, e)) return 0
    if (tag != 17) return refuse(5, inner)
    if (len < 8 || len > 512 || len % 4 != 0) return refuse(6, inner)
    if (!content(start + len, e)) return 0
    at = e
    return 1
}

# The request in the first n octets of s.
function read(n,    count) {
    verdict = ""
    if (!head_field(0, n, 1, 1)) return
    kind = s[3]
    if (kind != 0 && kind != 1 && kind != 3) { refuse(7, 0); return }
    if (!head_field(4, n, 2, 4)) return
    if (!head_field(11, n, 3, 2)) return
    if (s[14] != 0 || s[15] != 0) { refuse(7, 11); return }
    at = 16
    for (count = 0; at < n; count++) {
        if (count == 16 && at + 3 <= n && s[at] == 16) { refuse(8, at); return }
        if (count == 16) { if (field(at, n)) refuse(5, at); return }
        if (!binding(at, n)) return
    }
    verdict = "read " kind " " sprintf("%.0f", number_at(7, 4)) " " count
}

function tell(n) { read(n); print verdict }

function load(text,    i, n) {
    n = split(text, w, ",")
    for (i = 1; i <= n; i++) s[i - 1] = w[i] + 0
    return n
}

function damage(n,    i, p, own, v, m) {
    for (i = 0; i <= n; i++) tell(i)
    m = split("0,1,2,3,4,8,16,17,32,33,34,36,37,48,255", v, ",")
    for (p = 0; p < n; p++) {
        own = s[p]
        for (i = 1; i <= m; i++) { s[p] = v[i] + 0; tell(n) }
        s[p] = own
    }
}

BEGIN {
    head = "1,0,1,0,2,0,4,0,0,0,7,3,0,2,0,0"
    one = ",16,0,46,17,0,40,0,0,0,1,0,0,0,3,0,0,0,6,0,0,0,1,0,0,0,2,0,0,0,1,0,0,0,17,0,0,0,1,0,0,0,2,0,0,0,0,32,0,0"
    damage(load(head one))
    damage(load("1,0,1,3,2,0,4,0,0,1,0,3,0,2,0,0,16,0,16,17,0,8,0,0,0,1,0,0,0,3,34,0,2,97,98,16,0,18,17,0,8,0,0,0,1,0,0,0,4,33,0,4,0,0,0,5"))
    text = head
    for (k = 0; k <= 18; k++) { tell(load(text)); text = text one }
}
