#version 450
// How many steps of z := z * z + c stay within the circle of radius 2, up to 40. The pixel is z at first, and c too, unless the
// push block has a c of its own. Numbers are in units of 1/4096.
layout(push_constant) uniform Push {
    ivec2 corner;  // of the upper left pixel
    int step;      // from pixel to pixel
    int own;       // whether c is the push block's
    ivec2 c;
} push;
layout(location = 6) flat in ivec4 FragCoord;  // x, y and depth; the built-in, by examples/compile
layout(location = 0) out uint colour;
void main() {
    ivec2 z = push.corner + FragCoord.xy * push.step;
    ivec2 c = push.own == 1 ? push.c : z;
    uint steps = 0u;
    while (steps < 40u) {
        ivec2 square = (z * z) >> 12;
        if (square.x + square.y > 4 << 12) break;
        z = ivec2(square.x - square.y, (z.x * z.y) >> 11) + c;
        steps++;
    }
    colour = steps;
}
