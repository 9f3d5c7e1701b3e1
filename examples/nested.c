// A checksum over frames of bytes. Nested blocks and inlined calls are what its symbol stream is to have.
typedef unsigned char byte;

enum { PLAIN, DOUBLED, SKIPPED };

struct frame {
    byte kind;
    byte length;
    const byte *body;
};

static int dropped;

static inline __attribute__((always_inline)) unsigned rotate(unsigned sum, unsigned by)
{
    unsigned high = sum << by;
    unsigned low = sum >> (32 - by);
    return high | low;
}

static inline __attribute__((always_inline)) unsigned mix(unsigned sum, byte b)
{
    unsigned turned = rotate(sum, 5);
    return turned ^ b;
}

unsigned sum_frame(struct frame f, unsigned sum)
{
    for (int i = 0; i < f.length; i++) {
        byte b = f.body[i];
        sum = mix(sum, b);
        if (f.kind == DOUBLED) {
            byte again = b ^ 0xff;
            sum = mix(sum, again);
        }
    }
    return sum;
}

unsigned sum_frames(const struct frame *frames, int count)
{
    unsigned sum = 1;
    while (count > 0) {
        struct frame f = *frames++;
        count--;
        if (f.kind == SKIPPED) {
            int size = f.length;
            dropped += size;
        } else {
            unsigned before = sum;
            sum = sum_frame(f, sum);
            if (sum == before) {
                byte mark = f.kind;
                sum = mix(sum, mark);
            }
        }
    }
    return sum;
}

int start(void)
{
    static const byte text[] = "mitre";
    struct frame frames[] = { { PLAIN, 5, text }, { DOUBLED, 3, text }, { SKIPPED, 1, text } };
    unsigned sum = sum_frames(frames, 3);
    {
        unsigned folded = rotate(sum, 16);
        sum ^= folded;
    }
    return (int)(sum & 0x7f) + dropped;
}
