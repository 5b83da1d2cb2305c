#version 450
// Inputs that aren't interpolated; the side that is seen chooses between them.
layout(location = 0) flat in uvec3 front;
layout(location = 1) flat in uint back;
layout(location = 0) out uvec4 colour;
void main() {
    uint red = gl_FrontFacing ? front.x : back;
    colour = uvec4(red, front.yz, red % 7u);
}
