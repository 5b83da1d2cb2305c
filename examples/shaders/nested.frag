#version 450
// Selections in selections: the middle one of three words.
layout(location = 0) flat in ivec3 words;
layout(location = 0) out int colour;
void main() {
    int middle;
    if (words.x < words.y) {
        if (words.y < words.z) middle = words.y;
        else if (words.x < words.z) middle = words.z;
        else middle = words.x;
    } else {
        if (words.x < words.z) middle = words.x;
        else middle = words.y < words.z ? words.z : words.y;
    }
    colour = middle;
}
