'use strict';
// A glTF file in one piece, as tiles have it: nodes of meshes whose parts have places, triangles and a colour.
const GLTF = 0x46546C67, JSON_CHUNK = 0x4E4F534A, INDICES = {5123: Uint16Array, 5125: Uint32Array};

// The parts of the file's scene, each with its colour and kind of surface, its places and its triangles.
function parts_of_glb(data) {
  const words = new DataView(data), [mark, form] = [0, 4].map(at => words.getUint32(at, true));
  if (mark !== GLTF || form !== 2 || words.getUint32(16, true) !== JSON_CHUNK) throw new Error('no glTF file in one piece');
  const size = words.getUint32(12, true), told = JSON.parse(new TextDecoder().decode(new Uint8Array(data, 20, size)));
  const nodes = told.scenes[told.scene || 0].nodes || [];
  const numbers = (which, kind, width) => {
    const {bufferView, byteOffset = 0, count} = told.accessors[which];
    return new kind(data, 28 + size + (told.bufferViews[bufferView].byteOffset || 0) + byteOffset, width * count);
  };
  return nodes.flatMap(node => told.meshes[told.nodes[node].mesh].primitives).map(({attributes, indices, material}) => ({
    colour: [...told.materials[material].pbrMetallicRoughness.baseColorFactor.slice(0, 3).map(shown_part), kind_of(told.materials[material].name)],
    places: numbers(attributes.POSITION, Float32Array, 3), triangles: Uint32Array.from(numbers(indices, INDICES[told.accessors[indices].componentType], 1))}));
}

// A part of a colour from 0 to 255, off the light that a file tells.
function shown_part(light) {
  return Math.round(255 * (light <= .0031308 ? 12.92 * light : 1.055 * light ** (1 / 2.4) - .055));
}

// The number of a kind of surface. A window's frame needs the sizes of its solid, which no tile tells.
const kind_of = name => Math.max(0, MATERIALS.indexOf(name === 'window' ? 'glass' : name));
