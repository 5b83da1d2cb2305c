#version 450
// A case for each of some numbers, one of which is two cases' own, and a default.
layout(constant_id = 4) const int kind = 2;
layout(location = 0) flat in int number;
layout(location = 0) out int colour;
void main() {
    int result;
    switch (number) {
    case 0:
        result = kind;
        break;
    case 1:
    case 5:
        result = 10 / kind;
        break;
    case -3:
        discard;
    default:
        result = -number;
        break;
    }
    colour = result;
}
