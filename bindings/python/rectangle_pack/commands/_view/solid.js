// ---- Drawing in three dimensions, by WebGL: the graphics card hides what is behind ------------------------------------------

const VERTICES = `#version 300 es
layout(location = 0) in vec3 corner;
layout(location = 1) in vec3 normal;
layout(location = 2) in vec3 at;
layout(location = 3) in vec3 size;
layout(location = 4) in vec2 middle;
layout(location = 5) in vec4 paint;
layout(location = 6) in vec2 looks;
uniform mat3 turn;
uniform vec4 camera;
uniform vec2 stage;
uniform bool inside;
out vec2 where;
out vec2 pixels;
flat out vec4 tint;
flat out vec2 kind;

void main() {
  // Of a box those faces are drawn that look at the viewer, of a bin those that look away.
  if (((turn * normal).z > 0.0) != inside) {
    gl_Position = vec4(2.0, 2.0, 2.0, 1.0);
    return;
  }
  vec3 seen = turn * (at + corner * size);
  vec2 place = (middle + vec2(seen.x, -seen.y)) * camera.x + camera.yz;
  gl_Position = vec4(place.x / stage.x * 2.0 - 1.0, 1.0 - place.y / stage.y * 2.0, seen.z * camera.w, 1.0);
  vec3 side = abs(normal);
  where = side.x > 0.5 ? corner.zy : side.y > 0.5 ? corner.xz : corner.xy;
  pixels = where * (side.x > 0.5 ? size.zy : side.y > 0.5 ? size.xz : size.xy) * camera.x;
  tint = vec4(paint.rgb * dot(side, vec3(0.86, 1.06, 0.97)), paint.a);
  kind = looks;
}`;

const FRAGMENTS = `#version 300 es
precision highp float;
in vec2 where;
in vec2 pixels;
flat in vec4 tint;
flat in vec2 kind;
uniform vec3 edges[3];
uniform float widths[3];
uniform vec3 back;
out vec4 colour;

// How many pixels it is to the nearer border of the face, and at most how wide a line is there.
vec2 border(float t) {
  float step = max(length(vec2(dFdx(t), dFdy(t))), 1e-9);
  return vec2(min(t, 1.0 - t) / step, 0.2 / step);
}

float pattern(float which) {
  if (which < 0.5) return 0.0;
  if (which < 1.5) return step(mod(pixels.x + pixels.y, 9.0), 2.5);
  if (which < 2.5) return step(length(mod(pixels, 9.0) - 4.5), 2.0);
  return step(mod(pixels.x, 9.0), 2.5);
}

void main() {
  int mark = int(kind.x + 0.5);
  vec2 across = border(where.x);
  vec2 up = border(where.y);
  float width = min(widths[mark], min(across.y, up.y));
  float line = 1.0 - smoothstep(width - 0.5, width + 0.5, min(across.x, up.x));
  vec3 face = mix(tint.rgb, edges[0], 0.3 * pattern(tint.a));
  colour = vec4(mix(mix(face, edges[mark], line), back, kind.y), 1.0);
}`;

// Corner and normal of the six faces' triangles.
const CUBE = new Float32Array([0, 1, 2].flatMap((axis) => [0, 1].flatMap((end) => (
  [[0, 0], [1, 0], [1, 1], [0, 0], [1, 1], [0, 1]].flatMap(([u, v]) => {
    const [corner, normal] = [[0, 0, 0], [0, 0, 0]];
    [corner[axis], corner[(axis + 1) % 3], corner[(axis + 2) % 3]] = [end, u, v];
    normal[axis] = 2 * end - 1;
    return [...corner, ...normal];
  })
))));
const ATTRIBUTES = [3, 3, 2, 4, 2];
const FLOATS = 14;

/** The buffers and the program of the graphics card. */
class Solids {
  /** @param {HTMLCanvasElement} canvas */
  constructor(canvas) {
    this.canvas = canvas;
    this.gl = canvas.getContext("webgl2", { antialias: true, alpha: false });
    this.count = 0;
    this.onRestored = () => {};
    if (!this.gl) return;
    canvas.addEventListener("webglcontextlost", (event) => event.preventDefault());
    canvas.addEventListener("webglcontextrestored", () => {
      this.prepare();
      this.onRestored();
    });
    this.prepare();
  }

  prepare() {
    const gl = /** @type {WebGL2RenderingContext} */ (this.gl);
    this.program = /** @type {WebGLProgram} */ (gl.createProgram());
    for (const kind of [gl.VERTEX_SHADER, gl.FRAGMENT_SHADER]) {
      const shader = /** @type {WebGLShader} */ (gl.createShader(kind));
      gl.shaderSource(shader, kind === gl.VERTEX_SHADER ? VERTICES : FRAGMENTS);
      gl.compileShader(shader);
      gl.attachShader(this.program, shader);
    }
    gl.linkProgram(this.program);
    if (!gl.getProgramParameter(this.program, gl.LINK_STATUS) && !gl.isContextLost()) {
      throw new Error(gl.getProgramInfoLog(this.program) || "the program of the graphics card is not linked");
    }
    gl.bindBuffer(gl.ARRAY_BUFFER, gl.createBuffer());
    gl.bufferData(gl.ARRAY_BUFFER, CUBE, gl.STATIC_DRAW);
    for (const index of [0, 1]) {
      gl.enableVertexAttribArray(index);
      gl.vertexAttribPointer(index, 3, gl.FLOAT, false, 24, 12 * index);
    }
    gl.bindBuffer(gl.ARRAY_BUFFER, gl.createBuffer());
    let offset = 0;
    ATTRIBUTES.forEach((size, index) => {
      gl.enableVertexAttribArray(index + 2);
      gl.vertexAttribPointer(index + 2, size, gl.FLOAT, false, 4 * FLOATS, offset);
      gl.vertexAttribDivisor(index + 2, 1);
      offset += 4 * size;
    });
    gl.enable(gl.DEPTH_TEST);
    gl.depthFunc(gl.LEQUAL);
  }

  /**
   * Takes the bins and then the boxes that are shown.
   * @param {View} view @param {Look} look
   */
  take(view, look) {
    if (!this.gl) return;
    this.bins = view.cells.length;
    this.count = view.cells.reduce((sum, cell) => sum + (view.items.get(cell.room) || []).length, 0);
    const solids = new Float32Array(FLOATS * (this.bins + this.count));
    /** @type {Map<Group | null, number[]>} */
    const paints = new Map();
    for (const group of [null, ...view.scene.groups]) paints.set(group, [...rgb(look.fill(group)), look.pattern(group)]);
    const wall = [...rgb(look.colours.wall), 0];
    let at = 0;
    for (const cell of view.cells) at = putSolid(solids, at, cell, wholeOf(cell.room), wall, 0, 0);
    for (const cell of view.cells) {
      for (const item of view.items.get(cell.room) || []) {
        const isFound = view.matches !== null && view.matches.has(item);
        const mark = isFound ? 2 : view.placed.has(item) ? 1 : 0;
        const fade = view.matches !== null && !isFound ? 0.75 : 0;
        at = putSolid(solids, at, cell, item, paints.get(item.group) || wall, mark, fade);
      }
    }
    this.gl.bufferData(this.gl.ARRAY_BUFFER, solids, this.gl.DYNAMIC_DRAW);
    this.depth = 1 / Math.max(1e-9, ...view.cells.map((cell) => Math.hypot(...cell.room.size) * cell.scale));
  }

  /** @param {View} view @param {Look} look @param {number} ratio */
  draw(view, look, ratio) {
    const gl = this.gl;
    if (!gl || !this.program || gl.isContextLost()) return;
    const { program, canvas } = this;
    /** @param {string} name */
    const at = (name) => gl.getUniformLocation(program, name);
    const { zoom, x, y } = view.camera;
    gl.viewport(0, 0, canvas.width, canvas.height);
    gl.clearColor(...rgb(look.colours.stage), 1);
    gl.clear(gl.COLOR_BUFFER_BIT | gl.DEPTH_BUFFER_BIT);
    gl.useProgram(program);
    gl.uniformMatrix3fv(at("turn"), true, view.turn.rows().flat());
    gl.uniform4f(at("camera"), zoom, x, y, this.depth || 1);
    gl.uniform2f(at("stage"), canvas.width / ratio, canvas.height / ratio);
    gl.uniform3fv(at("edges"), [look.colours.edge, look.colours.placed, look.colours.match].flatMap(rgb));
    gl.uniform1fv(at("widths"), [0.7, 3, 3].map((width) => width * ratio));
    gl.uniform3fv(at("back"), rgb(look.colours.stage));
    const bins = this.bins || 0;
    gl.uniform1i(at("inside"), 1);
    this.drawFrom(0, bins);
    gl.uniform1i(at("inside"), 0);
    this.drawFrom(bins, this.count);
  }

  /**
   * Draws so many solids from one of them on.
   * @param {number} first @param {number} count
   */
  drawFrom(first, count) {
    const gl = /** @type {WebGL2RenderingContext} */ (this.gl);
    let offset = 4 * FLOATS * first;
    ATTRIBUTES.forEach((size, index) => {
      gl.vertexAttribPointer(index + 2, size, gl.FLOAT, false, 4 * FLOATS, offset);
      offset += 4 * size;
    });
    gl.drawArraysInstanced(gl.TRIANGLES, 0, 36, count);
  }
}

/**
 * Puts a solid behind those that are there. Where the next one goes.
 * @param {Float32Array} solids @param {number} first @param {Cell} cell @param {Part} part
 * @param {number[]} paint its colour and its pattern @param {number} mark @param {number} fade
 */
function putSolid(solids, first, cell, part, paint, mark, fade) {
  for (let axis = 0; axis < 3; axis += 1) {
    solids[first + axis] = (part.at[axis] - cell.room.size[axis] / 2) * cell.scale;
    solids[first + 3 + axis] = part.size[axis] * cell.scale;
  }
  solids.set([cell.x, cell.y, ...paint, mark, fade], first + 6);
  return first + FLOATS;
}
