#version 450
// A colour from a uniform block: a table of four words, one of which is chosen by an index in the block.
layout(set = 0, binding = 0, std140) uniform Table {
    uint index;
    uint scale;
    uvec4 words[4];
} table;
layout(location = 0) out uvec2 colour;
void main() {
    uvec4 entry = table.words[table.index];
    colour = uvec2(entry.x * table.scale, entry.w);
}
