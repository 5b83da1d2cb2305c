#version 450
// Outputs for a fragment shader, from an attribute and the two indices; no position.
layout(location = 0) in ivec2 corner;
layout(location = 0) flat out ivec3 words;
void main() {
    words = ivec3(corner * 256, gl_VertexIndex + 2 * gl_InstanceIndex);
}
