// What a page draws into its pictures is kept in `drawn`, from the last time that it took up a pen: lines with their points, words and boxes.
(() => {
  const proto = CanvasRenderingContext2D.prototype, take = HTMLCanvasElement.prototype.getContext;
  let path = [];
  window.drawn = { lines: [], words: [], boxes: [], frames: [] };

  function wrap(name, note) {
    const own = proto[name];
    proto[name] = function (...words) {
      note(this, ...words);
      return own.apply(this, words);
    };
  }

  HTMLCanvasElement.prototype.getContext = function (...words) {
    window.drawn = { lines: [], words: [], boxes: [], frames: [] };
    return take.apply(this, words);
  };
  wrap('beginPath', () => { path = []; });
  wrap('moveTo', (pen, x, y) => path.push([[x, y]]));
  wrap('lineTo', (pen, x, y) => path[path.length - 1].push([x, y]));
  wrap('closePath', () => path.push([]));
  wrap('stroke', (pen) => {
    window.drawn.lines.push({ dash: pen.getLineDash().length > 0, parts: path.filter((part) => part.length) });
  });
  wrap('fillText', (pen, text, x, y) => {
    window.drawn.words.push({ text: String(text), x, y, align: pen.textAlign, width: pen.measureText(text).width });
  });
  wrap('fillRect', (pen, x, y, width, height) => window.drawn.boxes.push({ x, y, width, height, color: pen.fillStyle }));
  wrap('strokeRect', (pen, x, y, width, height) => window.drawn.frames.push({ x, y, width, height, color: pen.strokeStyle }));
})();
