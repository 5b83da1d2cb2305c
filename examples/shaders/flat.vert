#version 450
// A corner as it stands in the buffer, with one word for the fragments.
layout(location = 0) in ivec3 corner;
layout(location = 1) in uint word;
layout(location = 7) out ivec4 Position;  // in 1/256 pixel; the built-in, by examples/compile
layout(location = 0) flat out uint colour;
void main() {
    Position = ivec4(corner, 1);
    colour = word;
}
