#version 450
// The sum of the numbers below a limit that aren't multiples of three, until it is at least a hundred.
layout(push_constant) uniform Push { uint limit; } push;
layout(location = 0) out uint colour;
void main() {
    uint sum = 0u;
    for (uint i = 1u; i < push.limit; i++) {
        if (i % 3u == 0u) continue;
        sum += i;
        if (sum >= 100u) break;
    }
    colour = sum;
}
