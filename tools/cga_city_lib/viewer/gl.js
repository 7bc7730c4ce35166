'use strict';
// The canvas and what it takes to draw on it.
const canvas = document.getElementById('canvas');
const gl = canvas.getContext('webgl2', {alpha: false, antialias: false, preserveDrawingBuffer: true});
const box_of = name => document.getElementById(name);

function tell(text) {
  box_of('said').textContent = text;
  box_of('said').style.display = text ? 'block' : 'none';
}

// Drawing by the processor alone gets a smaller map of shadows, hard shadows and one sample for each pixel.
function drawn_by() {
  const told = gl.getExtension('WEBGL_debug_renderer_info');
  return gl.getParameter(told ? told.UNMASKED_RENDERER_WEBGL : gl.RENDERER);
}
const is_slow = gl ? /swiftshader|llvmpipe|software/i.test(drawn_by()) : false;

function shader(kind, text) {
  const made = gl.createShader(kind);
  gl.shaderSource(made, '#version 300 es\nprecision highp float; precision highp int; precision highp sampler2D; precision highp sampler2DShadow;\n' + text);
  gl.compileShader(made);
  if (!gl.getShaderParameter(made, gl.COMPILE_STATUS)) throw new Error(gl.getShaderInfoLog(made));
  return made;
}

// A program with a setter for each of its uniforms: numbers, lists of 2 to 4, and matrices of 16.
function program(vertex, fragment) {
  const made = gl.createProgram(), set = {};
  gl.attachShader(made, shader(gl.VERTEX_SHADER, vertex));
  gl.attachShader(made, shader(gl.FRAGMENT_SHADER, fragment));
  gl.linkProgram(made);
  if (!gl.getProgramParameter(made, gl.LINK_STATUS)) throw new Error(gl.getProgramInfoLog(made));
  for (let k = gl.getProgramParameter(made, gl.ACTIVE_UNIFORMS) - 1; k >= 0; k--) {
    const {name, type} = gl.getActiveUniform(made, k), place = gl.getUniformLocation(made, name);
    set[name] = setter(place, type);
  }
  return values => {
    gl.useProgram(made);
    for (const name in values) if (set[name]) set[name](values[name]);
  };
}

function setter(place, type) {
  if (type === gl.FLOAT_MAT4) return value => gl.uniformMatrix4fv(place, false, value);
  if (type === gl.FLOAT) return value => gl.uniform1f(place, value);
  const floats = {[gl.FLOAT_VEC2]: 'uniform2fv', [gl.FLOAT_VEC3]: 'uniform3fv', [gl.FLOAT_VEC4]: 'uniform4fv'}[type];
  return floats ? value => gl[floats](place, value) : value => gl.uniform1i(place, value);
}

// A buffer whose floats are attributes, one after the other from the given place; each has its size.
function attributes(data, first, sizes, each, usage) {
  const made = gl.createBuffer(), stride = 4 * sizes.reduce((a, b) => a + b);
  gl.bindBuffer(gl.ARRAY_BUFFER, made);
  gl.bufferData(gl.ARRAY_BUFFER, data, usage || gl.STATIC_DRAW);
  let from = 0;
  sizes.forEach((size, k) => {
    gl.enableVertexAttribArray(first + k);
    gl.vertexAttribPointer(first + k, size, gl.FLOAT, false, stride, from);
    gl.vertexAttribDivisor(first + k, each);
    from += 4 * size;
  });
  return made;
}

function texture(unit, filter, more = []) {
  const made = gl.createTexture();
  gl.activeTexture(gl.TEXTURE0 + unit);
  gl.bindTexture(gl.TEXTURE_2D, made);
  const sides = [[gl.TEXTURE_WRAP_S, gl.CLAMP_TO_EDGE], [gl.TEXTURE_WRAP_T, gl.CLAMP_TO_EDGE]];
  for (const [name, value] of [[gl.TEXTURE_MIN_FILTER, filter], [gl.TEXTURE_MAG_FILTER, filter], ...sides, ...more]) {
    gl.texParameteri(gl.TEXTURE_2D, name, value);
  }
  return made;
}

function framebuffer(parts) {
  const made = gl.createFramebuffer();
  gl.bindFramebuffer(gl.FRAMEBUFFER, made);
  for (const [place, part] of parts) {
    if (part instanceof WebGLTexture) gl.framebufferTexture2D(gl.FRAMEBUFFER, place, gl.TEXTURE_2D, part, 0);
    else gl.framebufferRenderbuffer(gl.FRAMEBUFFER, place, gl.RENDERBUFFER, part);
  }
  gl.bindFramebuffer(gl.FRAMEBUFFER, null);
  return made;
}
