// The picture, by WebGL with a depth buffer. The buffers are filled once; the fraction of the step is a number that the
// shaders mix starts and ends by. Marks are unlit and over the film, so that they are seen.
import { FILM_ROW, STRIP_ROW, DOT_ROW, filmRows, edgesOf, markRows, joinedRanges } from './buffers.js';
import { DOT_FRAGMENT, DOT_VERTEX, FILM_FRAGMENT, FILM_VERTEX, PLAIN_FRAGMENT, PLAIN_VERTEX, STRIP_VERTEX } from './shaders.js';
import { axesOf, matrixOf, placeIn } from './turning.js';

const MARKS = { VF: [209 / 255, 52 / 255, 47 / 255], EE: [224 / 255, 123 / 255, 0] };
const PATCH_SHARE = 0.32;
const LIGHT = [0.42, -0.3, 0.86];

// Makes the picture, or null where there is no WebGL. `redraw` is called where the browser has lost it and given it back.
export function makePicture(canvas, redraw) {
  const gl = canvas.getContext('webgl', { antialias: true, alpha: false, preserveDrawingBuffer: true });
  if (!gl) return null;
  let programs, loaded = null, parts = null;

  function program(vertex, fragment) {
    const made = gl.createProgram();
    for (const [kind, text] of [[gl.VERTEX_SHADER, vertex], [gl.FRAGMENT_SHADER, fragment]]) {
      const shader = gl.createShader(kind);
      gl.shaderSource(shader, text);
      gl.compileShader(shader);
      gl.attachShader(made, shader);
    }
    gl.linkProgram(made);
    if (!gl.getProgramParameter(made, gl.LINK_STATUS) && !gl.isContextLost()) throw new Error(gl.getProgramInfoLog(made));
    const of = (count, info, where) => Object.fromEntries(Array.from({ length: gl.getProgramParameter(made, count) || 0 }, (_, i) => {
      const { name } = gl[info](made, i);
      return [name, gl[where](made, name)];
    }));
    return {
      made,
      inputs: of(gl.ACTIVE_ATTRIBUTES, 'getActiveAttrib', 'getAttribLocation'),
      sets: of(gl.ACTIVE_UNIFORMS, 'getActiveUniform', 'getUniformLocation'),
    };
  }

  function prepare() {
    programs = {
      film: program(FILM_VERTEX, FILM_FRAGMENT),
      plain: program(PLAIN_VERTEX, PLAIN_FRAGMENT),
      strip: program(STRIP_VERTEX, PLAIN_FRAGMENT),
      dot: program(DOT_VERTEX, DOT_FRAGMENT),
    };
    gl.enable(gl.DEPTH_TEST);
    gl.depthFunc(gl.LEQUAL);
    gl.blendFunc(gl.SRC_ALPHA, gl.ONE_MINUS_SRC_ALPHA);
    gl.polygonOffset(1, 1);
  }

  function buffer(data, kind = gl.ARRAY_BUFFER) {
    const made = gl.createBuffer();
    gl.bindBuffer(kind, made);
    gl.bufferData(kind, data, gl.STATIC_DRAW);
    return made;
  }

  function fill() {
    if (parts) Object.values(parts.buffers).forEach((b) => gl.deleteBuffer(b));
    const { film, entries } = loaded;
    const marks = markRows(film, entries);
    const edges = edgesOf(film.faces);
    parts = {
      corners: film.faces.length, edges: edges.length, ranges: marks.ranges, joined: joinedRanges(marks.ranges),
      buffers: {
        film: buffer(filmRows(film)), points: buffer(film.points), edges: buffer(edges, gl.ELEMENT_ARRAY_BUFFER),
        strips: buffer(marks.strips), dots: buffer(marks.dots), patches: buffer(marks.patches),
      },
    };
  }

  // Takes a program, its uniforms and its rows. Inputs are given as name: [first number of the row, how many numbers].
  function use({ made, inputs, sets }, uniforms, rows, rowLength, places) {
    gl.useProgram(made);
    for (const [name, value] of Object.entries(uniforms)) {
      const at = sets[name];
      if (at === undefined) continue;
      if (name === 'view') gl.uniformMatrix4fv(at, false, value);
      else if (typeof value === 'number') gl.uniform1f(at, value);
      else gl[`uniform${value.length}fv`](at, value);
    }
    gl.bindBuffer(gl.ARRAY_BUFFER, rows);
    for (let i = 0; i < 8; i++) gl.disableVertexAttribArray(i);
    for (const [name, [first, size]] of Object.entries(places)) {
      if (inputs[name] === undefined) continue;
      gl.enableVertexAttribArray(inputs[name]);
      gl.vertexAttribPointer(inputs[name], size, gl.SHORT, false, 2 * rowLength, 2 * first);
    }
  }

  const A = { a0: [0, 3], a1: [3, 3] };
  const B = { b0: [6, 3], b1: [9, 3] };

  const draws = {
    film(uniforms) {
      use(programs.film, uniforms, parts.buffers.film, FILM_ROW, { ...A, ...B, c0: [12, 3], c1: [15, 3] });
      gl.enable(gl.POLYGON_OFFSET_FILL);
      gl.drawArrays(gl.TRIANGLES, 0, parts.corners);
      gl.disable(gl.POLYGON_OFFSET_FILL);
    },
    edges(uniforms) {
      use(programs.plain, uniforms, parts.buffers.points, 6, A);
      gl.bindBuffer(gl.ELEMENT_ARRAY_BUFFER, parts.buffers.edges);
      gl.depthMask(false); // edges hide no edges, so their order does not matter
      gl.drawElements(gl.LINES, parts.edges, gl.UNSIGNED_SHORT, 0);
      gl.depthMask(true);
    },
    patches(uniforms, [from, to]) {
      if (to === from) return;
      use(programs.plain, uniforms, parts.buffers.patches, 6, A);
      gl.drawArrays(gl.TRIANGLES, from, to - from);
    },
    strips(uniforms, [from, to]) {
      if (to === from) return;
      use(programs.strip, uniforms, parts.buffers.strips, STRIP_ROW, { ...A, ...B, corner: [12, 2] });
      gl.drawArrays(gl.TRIANGLES, from, to - from);
    },
    dots(uniforms, [from, to]) {
      if (to === from) return;
      use(programs.dot, uniforms, parts.buffers.dots, DOT_ROW, { ...A, corner: [6, 2] });
      gl.drawArrays(gl.TRIANGLES, from, to - from);
    },
  };

  // The marks of some ranges, in the pure colours of their kinds: all lines, then the points with a pale ring around each.
  // `share` is how much of the lines' colour is drawn.
  function mark(uniforms, ranges, { line, share, dot, ring, patch }) {
    const coloured = (range, part) => ({ ...uniforms, colour: [...MARKS[range.kind], part] });
    for (const range of ranges) {
      if (patch) draws.patches(coloured(range, PATCH_SHARE), range.patches);
      draws.strips({ ...coloured(range, share), width: line }, range.strips);
    }
    for (const range of ranges) {
      draws.dots({ ...uniforms, colour: [1, 1, 1, 1], width: dot + ring }, range.dots);
      draws.dots({ ...coloured(range, 1), width: dot }, range.dots);
    }
  }

  prepare();
  canvas.addEventListener('webglcontextlost', (event) => event.preventDefault());
  canvas.addEventListener('webglcontextrestored', () => { parts = null; prepare(); if (loaded) fill(); redraw(); });

  return {
    load(film, entries) { loaded = { film, entries }; fill(); },
    clear() { loaded = null; },

    // Draws the film from a camera at a fraction of the step. `chosen` is the number of an entry, or −1. `cut` is where film is
    // cut away in front of it, or null: { front, centre, reach }, its foremost place, its middle and its size.
    draw({ camera, fraction, chosen, cut, depth, colours }) {
      const scale = window.devicePixelRatio || 1;
      const width = Math.max(1, Math.round(canvas.clientWidth * scale)), height = Math.max(1, Math.round(canvas.clientHeight * scale));
      if (canvas.width !== width || canvas.height !== height) Object.assign(canvas, { width, height });
      gl.viewport(0, 0, width, height);
      gl.clearColor(...colours.ground, 1);
      gl.clear(gl.COLOR_BUFFER_BIT | gl.DEPTH_BUFFER_BIT);
      if (!loaded || gl.isContextLost()) return;
      const uniforms = {
        view: matrixOf(camera, width / height, depth), fraction, toward: axesOf(camera).toward, light: LIGHT,
        front: colours.front, back: colours.back, pixels: [width / 2, height / 2], veiled: 0, limit: camera.centre, hub: [0, 0], reach: 1,
      };
      const seen = cut && placeIn(camera, cut.centre, width, height);
      const veiled = cut ? { ...uniforms, veiled: 1, limit: cut.front, hub: seen.slice(0, 2), reach: cut.reach * seen[2] } : uniforms;
      draws.film(veiled);
      gl.enable(gl.BLEND);
      draws.edges({ ...veiled, colour: colours.edge });
      gl.disable(gl.DEPTH_TEST);
      const one = chosen >= 0;
      const sized = (sizes) => Object.fromEntries(Object.entries(sizes).map(([name, size]) => [name, size * scale]));
      const others = one ? { ...sized({ line: 0.6, dot: 2, ring: 0.7 }), share: 0.55 } : { ...sized({ line: 1.1, dot: 4, ring: 1.2 }), share: 1 };
      mark(uniforms, parts.joined, others);
      if (one) mark(uniforms, [parts.ranges[chosen]], { ...sized({ line: 2.2, dot: 7, ring: 2 }), share: 1, patch: true });
      gl.disable(gl.BLEND);
      gl.enable(gl.DEPTH_TEST);
    },
  };
}
