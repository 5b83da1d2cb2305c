#version 450
// The first corner's word.
layout(location = 0) flat in uint word;
layout(location = 0) out uint colour;
void main() {
    colour = word;
}
