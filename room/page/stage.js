/* The picture: as large as the window, drawn where something changed and never else. */
import { byId, field, state } from "./core.js";
import { beginBatches } from "./batches.js";
import { beginCamera, camera, fitCamera, look } from "./camera.js";
import { drawn, refresh } from "./scene.js";

export const stage = {
  view: byId("view"), renderer: null, size: [0, 0], fits: "", draws: 0, software: false,
  always: false, // whether each frame is drawn, to measure how long that takes
  before: [], // what is done before a frame that is drawn
};

/* Whether a processor draws, without graphics hardware: then pixels are no finer than CSS has them. */
function drawsBySoftware() {
  const probe = document.createElement("canvas").getContext("webgl");
  const about = probe && probe.getExtension("WEBGL_debug_renderer_info");
  const name = about ? probe.getParameter(about.UNMASKED_RENDERER_WEBGL) : "";
  const lose = probe && probe.getExtension("WEBGL_lose_context");
  if (lose) lose.loseContext();
  return /swiftshader|llvmpipe|softpipe|software|basic render/i.test(name);
}

export function beginStage() {
  stage.software = drawsBySoftware();
  stage.renderer = new THREE.WebGLRenderer({ canvas: stage.view, antialias: true, alpha: true, stencil: false });
  stage.renderer.setClearColor(0, 0);
  beginCamera();
  beginBatches(drawn.scene);
  // What moves is placed where it moves, and nothing else in each frame.
  drawn.scene.autoUpdate = false;
  drawn.seen = () => {
    look();
    paintSky();
  };
}

/* The first color of the sky of a Background stands in for all of it; without one the page's own is seen. */
function paintSky() {
  const sky = field(state.nodes.find((node) => node.kind === "Background"), "skyColor", []);
  stage.view.style.background = sky.length < 3 ? "" : `#${new THREE.Color(...sky.slice(0, 3)).getHexString()}`;
}

/* That the window has another size is looked at when it changed alone. */
export function fit() {
  const [wide, high] = stage.size, scale = window.devicePixelRatio, fine = stage.software ? Math.min(1, scale) : scale;
  const now = [wide, high, fine].join();
  if (!wide || !high || stage.fits === now) return;
  stage.fits = now;
  if (stage.renderer) {
    stage.renderer.setPixelRatio(fine);
    stage.renderer.setSize(wide, high, false);
  }
  fitCamera(wide / high);
}

const measure = () => { stage.size = [stage.view.clientWidth, stage.view.clientHeight]; };
new ResizeObserver(measure).observe(stage.view);
measure();

/* Where a processor draws, frames are this long apart at least, in milliseconds. */
const SLOW = 60;
let last = -SLOW;

export function frame(now = 0) {
  requestAnimationFrame(frame);
  if (!drawn.content || !stage.renderer) return;
  fit();
  if (!(drawn.dirty || drawn.stale.size)) return;
  if (stage.software && !stage.always && now - last < SLOW) return;
  last = now;
  refresh();
  for (const work of stage.before) work();
  drawn.dirty = stage.always;
  stage.renderer.render(drawn.scene, camera);
  stage.draws += 1;
}
