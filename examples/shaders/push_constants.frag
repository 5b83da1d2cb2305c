#version 450
// Push constants that mix two words by a mask.
layout(push_constant) uniform Push {
    uint mask;
    ivec2 first;
    ivec2 second;
} push;
layout(location = 0) out ivec2 colour;
void main() {
    ivec2 keep = push.first & ivec2(push.mask);
    ivec2 other = push.second & ivec2(~push.mask);
    colour = keep | other;
}
