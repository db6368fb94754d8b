// What the graphics processor runs. Faces go through twice, with sign 1 and -1 (see view.js); lines and marks come in clip space.

export const FACE_VERTEX = `#version 300 es
in vec4 row; in vec3 normal; in vec3 colour; in float hatched;
uniform mat4 matrix; uniform vec3 toLight; uniform float sign;
flat out vec3 shade; flat out float hatch;
void main() {
    gl_Position = sign * (matrix * row);
    float lit = length(normal) > 0.0 ? abs(dot(normalize(normal), toLight)) : 1.0;
    shade = colour * (0.55 + 0.45 * lit);
    hatch = hatched;
}`;

export const FACE_FRAGMENT = `#version 300 es
precision highp float;
flat in vec3 shade; flat in float hatch;
uniform vec3 pierced; uniform float opacity, pixel;
out vec4 painted;
void main() {
    float stripe = mod((gl_FragCoord.x + gl_FragCoord.y) / pixel, 9.0);
    bool mark = hatch > 0.0 && stripe < 2.0 + hatch;
    painted = mark ? vec4(pierced, max(opacity, 0.75)) : vec4(shade, opacity);
}`;

export const FLAT_VERTEX = `#version 300 es
in vec4 place; in vec3 colour;
out vec3 tint;
void main() { gl_Position = place; tint = colour; }`;

export const FLAT_FRAGMENT = `#version 300 es
precision highp float;
in vec3 tint;
out vec4 painted;
void main() { painted = vec4(tint, 1.0); }`;

export const MARK_VERTEX = `#version 300 es
in vec4 place; in vec3 colour; in float size; in float filled;
uniform float pixel;
out vec3 tint; flat out float full; flat out float rim;
void main() { gl_Position = place; gl_PointSize = size * pixel; tint = colour; full = filled; rim = 1.0 - 4.0 / size; }`;

export const MARK_FRAGMENT = `#version 300 es
precision highp float;
in vec3 tint; flat in float full; flat in float rim;
uniform vec3 ground;
out vec4 painted;
void main() {
    float far = 2.0 * length(gl_PointCoord - 0.5);
    if (far > 1.0) discard;
    painted = vec4(far > rim || full > 0.5 ? tint : ground, 1.0);
}`;
