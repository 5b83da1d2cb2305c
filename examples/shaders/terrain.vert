#version 450
// A terrain of 32 x 32 cells, two triangles a cell, over a map of 33 x 33 heights, seen in perspective. No buffer holds
// vertices: each is worked out from its number alone.
layout(set = 0, binding = 0, std140) uniform Map { ivec4 heights[273]; } map;
layout(push_constant) uniform View { int eye; int horizon; int focus; } view;
layout(location = 7) out ivec4 Position;  // in 1/256 pixel; the built-in, by examples/compile
layout(location = 0) flat out ivec2 ground;  // the cell's height and its brightness
void main() {
    int triangle = gl_VertexIndex / 3;
    int corner = gl_VertexIndex % 3;
    int cell = triangle >> 1;
    bool far = (triangle & 1) == 1;
    int left = cell & 31;
    int near = cell >> 5;

    // The heights at the cell's four corners.
    int at = near * 33 + left;
    int a = map.heights[at >> 2][at & 3];
    int b = map.heights[(at + 1) >> 2][(at + 1) & 3];
    int c = map.heights[(at + 33) >> 2][(at + 33) & 3];
    int d = map.heights[(at + 34) >> 2][(at + 34) & 3];

    // The corners of its two triangles: a, b, c and d, c, b.
    int x = left;
    int z = near;
    int height = a;
    if (far) {
        x += corner == 1 ? 0 : 1;
        z += corner == 2 ? 0 : 1;
        height = corner == 0 ? d : corner == 1 ? c : b;
    } else {
        x += corner == 1 ? 1 : 0;
        z += corner == 2 ? 1 : 0;
        height = corner == 0 ? a : corner == 1 ? b : c;
    }

    int away = 640 + 64 * z;
    int side = 64 * x - 1024;
    Position.x = 64 * 256 + side * view.focus / away;
    Position.y = view.horizon + (view.eye - (height < 0 ? 0 : 3 * height)) * view.focus / away;
    Position.z = away;
    Position.w = 1;

    // Light comes from the left: a slope that rises to the right is bright.
    int light = 170 + 2 * (far ? d - c : b - a);
    light = light < 70 ? 70 : light > 255 ? 255 : light;
    ground = ivec2((a + b + c + d) >> 2, light);
}
