#version 450
// The colour of a piece of ground by its height, its light and its distance: one word, 00RRGGBB.
layout(location = 6) flat in ivec4 FragCoord;  // x, y and depth; the built-in, by examples/compile
layout(location = 0) flat in ivec2 ground;  // height and brightness
layout(location = 0) out uint colour;
void main() {
    ivec3 paint = ivec3(244, 246, 250);  // snow
    if (ground.x < 1) paint = ivec3(52, 98, 158);  // water
    else if (ground.x < 8) paint = ivec3(206, 188, 132);  // sand
    else if (ground.x < 60) paint = ivec3(98, 140, 64);  // grass
    else if (ground.x < 104) paint = ivec3(122, 108, 96);  // rock
    int light = ground.x < 1 ? 230 + ground.x / 2 : ground.y;  // water is flat, and darker where it is deep
    light = light < 120 ? 120 : light;
    paint = paint * light / 255;

    // Haze: the farther, the more of the sky's colour.
    int haze = (FragCoord.z - 640) / 16;
    paint += (ivec3(158, 190, 224) - paint) * haze / 255;
    colour = uint((paint.r << 16) | (paint.g << 8) | paint.b);
}
