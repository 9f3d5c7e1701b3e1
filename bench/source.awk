# Writes a C++ source whose symbol stream is large: `functions` functions of random shape, with locals, blocks in one another and
# inlined calls. The same number always gives the same source.
BEGIN {
    seed = 20
    words = split("width height scanline tile band definition state bit key identity_cell vector_angle row column node " \
        "offset resolution threshold gamma_entry coverage hook", word)
    print "typedef unsigned char byte;"
    print "#define INLINE static inline __attribute__((always_inline))"
    print "namespace engine {"
    print "INLINE unsigned rotate(unsigned sum, unsigned by) { unsigned high = sum << by; unsigned low = sum >> (32 - by); return high | low; }"
    print "INLINE unsigned mix(unsigned sum, byte sample) { unsigned turned = rotate(sum, 5); return turned ^ sample; }"
    print "INLINE unsigned blend(unsigned over, unsigned under) { unsigned mixed = mix(over, under & 255); return mixed + rotate(under, 9); }"
    for (k = 0; k < functions; k++)
        write_function(k)
    print "}"
    printf "extern \"C\" int start(void) { return (int)engine::%s(1, 2); }\n", name(0)
}

function random(bound) {
    seed = seed * 16807 % 2147483647
    return seed % bound
}

function name(k) {
    return word[k % words + 1] "_of_" word[k * 7 % words + 1] "_" k
}

function write_function(k) {
    locals = 0
    printf "__attribute__((noinline)) unsigned %s(unsigned sum, unsigned count) {\n", name(k)
    write_statements(0, 1 + random(6))
    print "return sum; }"
}

function write_statements(depth, count,    local, sort) {
    while (count-- > 0) {
        local = word[random(words) + 1] "_" locals++
        sort = random(12)
        if (sort < 4 && depth < 5) {
            printf "for (unsigned %s = sum & 7; %s < count; %s += %d) {\n", local, local, local, 1 + random(9)
            write_statements(depth + 1, 1 + random(3))
            print "}"
        } else if (sort < 6) {
            printf "sum = mix(sum, (byte)(count + %d));\n", random(1000)
        } else if (sort == 6) {
            printf "sum = blend(sum, count + %d);\n", random(1000)
        } else if (sort == 7) {
            printf "static unsigned %s; %s += sum;\n", local, local
        } else if (sort == 8) {
            printf "typedef unsigned %s_t; %s_t %s = count * %d; sum += %s;\n", local, local, local, random(1000), local
        } else {
            printf "unsigned %s = sum * %du ^ count; sum += %s >> 3;\n", local, 1 + 2 * random(50000), local
        }
    }
}
