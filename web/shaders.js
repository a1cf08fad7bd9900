// The shaders of the picture. A point is at the mix of its start and its end by the fraction of the step.

// Film in front of what is chosen is cut away around it: the nearer to it, the more pixels are left out, of each four by four
// in a fixed order.
const VEIL = `
  precision highp float;
  uniform float veiled;
  uniform vec2 hub;
  uniform float reach;
  varying float ahead;
  float order4(vec2 at) {
    vec2 low = mod(at, 2.0), high = mod(floor(at / 2.0), 2.0);
    vec2 x = abs(low - low.yx), y = abs(high - high.yx);
    return (8.0 * x.x + 4.0 * low.y + 2.0 * y.x + high.y + 0.5) / 16.0;
  }
  void veil() {
    if (veiled < 0.5 || ahead <= 0.0) return;
    float left = max(0.12, smoothstep(0.6, 1.25, distance(gl_FragCoord.xy, hub) / reach));
    if (order4(floor(gl_FragCoord.xy)) > left) discard;
  }`;

const PLACE = `
  precision highp float;
  uniform mat4 view;
  uniform float fraction;
  uniform vec3 toward, limit;
  varying float ahead;
  vec4 place(vec3 p) { ahead = dot(toward, p - limit); return view * vec4(p, 1.0); }`;

export const FILM_VERTEX = `${PLACE}
  attribute vec3 a0, a1, b0, b1, c0, c1;
  uniform vec3 light, front, back;
  varying vec3 tint;
  void main() {
    vec3 a = mix(a0, a1, fraction), b = mix(b0, b1, fraction), c = mix(c0, c1, fraction);
    vec3 n = cross(b - a, c - a);
    float size = length(n);
    n = size > 0.0 ? n / size : toward;
    float side = dot(n, toward);
    float lit = abs(dot(n, light)) * 0.55 + max(0.0, dot(side < 0.0 ? -n : n, light)) * 0.45;
    tint = (side < 0.0 ? back : front) * (0.66 + 0.34 * lit);
    gl_Position = place(a);
  }`;
export const FILM_FRAGMENT = `${VEIL}
  varying vec3 tint;
  void main() { veil(); gl_FragColor = vec4(tint, 1.0); }`;

export const PLAIN_VERTEX = `${PLACE}
  attribute vec3 a0, a1;
  void main() { gl_Position = place(mix(a0, a1, fraction)); }`;
export const PLAIN_FRAGMENT = `${VEIL}
  uniform vec4 colour;
  void main() { veil(); gl_FragColor = colour; }`;

export const STRIP_VERTEX = `${PLACE}
  attribute vec3 a0, a1, b0, b1;
  attribute vec2 corner;
  uniform vec2 pixels;
  uniform float width;
  void main() {
    vec4 a = place(mix(a0, a1, fraction)), b = place(mix(b0, b1, fraction));
    vec2 along = (b.xy - a.xy) * pixels;
    float size = length(along);
    along = size > 0.0 ? along / size : vec2(1.0, 0.0);
    vec2 out_ = vec2(-along.y, along.x) * corner.y + along * (corner.x * 2.0 - 1.0) * 0.5;
    gl_Position = corner.x < 0.5 ? a : b;
    gl_Position.xy += out_ * width / pixels;
    gl_Position.z = 0.0;
  }`;

export const DOT_VERTEX = `${PLACE}
  attribute vec3 a0, a1;
  attribute vec2 corner;
  uniform vec2 pixels;
  uniform float width;
  varying vec2 within;
  void main() {
    within = corner;
    gl_Position = place(mix(a0, a1, fraction));
    gl_Position.xy += corner * width / pixels;
    gl_Position.z = 0.0;
  }`;
export const DOT_FRAGMENT = `
  precision highp float;
  uniform vec4 colour;
  varying vec2 within;
  void main() { if (dot(within, within) > 1.0) discard; gl_FragColor = colour; }`;
