'use strict';
// Meshes of one's own: their corners have tones, each for so many of them, `[corners, red, green, blue, material]`. A tone of no
// material leaves the colour to the symbol.
const tone_rows = ({corners, tones}) => tones ? Math.ceil(corners.length / WIDE) : 0;

// Writes the tone of each corner from a place of a texture's data on, as the texture of colours has it.
function put_tones(tones, data, at) {
  for (const [corners, red, green, blue, material] of tones) {
    for (let k = 0; k < corners; k++, at += 4) data.set([red, green, blue, 1 + material].map(part => part / 255), at);
  }
}
