#version 450
// One pattern of four, chosen when the pipeline is made, in a colour of the palette; where the pattern has a hole nothing is written.
layout(constant_id = 0) const int pattern = 0;
layout(constant_id = 1) const int size = 8;
layout(set = 0, binding = 0, std140) uniform Palette { uvec4 colours[2]; } palette;
layout(location = 6) flat in ivec4 FragCoord;  // x, y and depth; the built-in, by examples/compile
layout(location = 0) flat in uint row;  // of the palette
layout(location = 0) out uint colour;
void main() {
    int x = FragCoord.x;
    int y = FragCoord.y;
    int entry;
    switch (pattern) {
    case 0:  // squares
        entry = (x / size + y / size) & 1;
        break;
    case 1:  // stripes
        entry = (x + y) / size & 3;
        break;
    case 2: {  // discs, with holes between them
        int u = x % size - size / 2;
        int v = y % size - size / 2;
        if (4 * (u * u + v * v) > size * size) discard;
        entry = 2;
        break;
    }
    default:  // each pixel by its bits
        entry = (x & y) == 0 ? 3 : (x ^ y) % size == 0 ? 1 : 0;
        break;
    }
    colour = palette.colours[row][entry];
}
