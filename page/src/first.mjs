// The sheet that a new page opens with: the frame that racks.

export const FIRST = {
    name: 'frame',
    text: `# A frame of four bars: it racks, since nothing holds its diagonals. Drag a corner.
point A at 0 0 B at 600 0 C at 640 398 D at 40 398
distance A B 600.0 mm
distance B C 400.0 mm
distance C D 600.0 mm
distance A D 400.0 mm
`,
};
