/* A window of a shared room: it shows its own viewer's world, and offers where its pointer is. */
import { beginAlerts } from "./alerts.js";
import { camera, choose, forgetView, spotOf, viewpoints } from "./camera.js";
import { byId, element, field, state } from "./core.js";
import { beginInside } from "./inside.js";
import { beginLanes, marks } from "./lanes.js";
import { connect, on } from "./link.js";
import { beginOwn, loadOwn, own } from "./own.js";
import { beginPeople } from "./people.js";
import { pointer } from "./pointer.js";
import { endHints, hint, namesOf, placeHints, sensorsAt } from "./pressing.js";
import { beginReplay } from "./replay.js";
import { drawn, refresh, showNews, showScene } from "./scene.js";
import { beginStage, fit, frame, stage } from "./stage.js";
import { forgetPoints, pointsAt, showPoints } from "./tags.js";

function showViewpoints() {
  const all = viewpoints();
  // Where there is one, "Reset view" goes to it.
  byId("views").hidden = all.length < 2;
  byId("views").replaceChildren(...all.map(({ node }, k) => {
    const option = element("option", "", field(node, "description", "") || `view ${k + 1}`);
    option.value = k;
    return option;
  }));
}

let hinted = false;
on("scene", (scene) => {
  const other = String(scene.nodes.map((node) => node.label)) !== String(state.nodes.map((node) => node.label));
  // Where another run of the same scene begins, each window looks from where it did.
  if (other) forgetView();
  showScene(scene);
  showPoints(scene.points);
  byId("loading").hidden = true;
  if (other) showViewpoints();
  if (!hinted && state.who !== null) hint();
  hinted = true;
});
on("news", (news) => {
  showNews(news);
  showPoints(news.points);
});
on("run", (run) => {
  Object.assign(state, { run: run.run, orientations: run.orientations });
  state.lanes.clear();
  forgetPoints();
  endHints();
  hinted = false;
});
byId("views").addEventListener("change", () => choose(Number(byId("views").value)));
byId("home").addEventListener("click", () => {
  choose(Number(byId("views").value) || 0);
  if (state.who !== null && !state.replay) hint();
});
stage.before.push(() => placeHints(stage.view.getBoundingClientRect()));

/* What the tests look at. */
window.room = {
  state, drawn, stage, pointer, camera, own, pointsAt, namesOf, sensorsAt,
  // What a test that failed tells: how far this window is, and what became of its pointers.
  told: () => JSON.stringify({
    n: state.n, numbered: state.status && state.status.numbered, drawn: stage.draws, gone: !byId("gone").hidden,
    answers: pointer.answers, waits: pointer.waits.length, down: pointer.down, who: state.who,
  }),
  marks: () => marks,
  // What a field holds, or what an output has sent last that holds nothing.
  value(label, name) {
    const lane = state.lanes.get(`${label}.${name}`), held = field(state.nodes[state.labels.get(label)], name);
    return held === undefined && lane && lane.length ? lane[lane.length - 1].value : held;
  },
  placeOf(label) {
    refresh();
    const thing = (drawn.things.get(state.labels.get(label)) || [])[0];
    return thing ? new THREE.Box3().setFromObject(thing).getCenter(new THREE.Vector3()).toArray() : null;
  },
  spotOf(place) {
    fit();
    const { x, y } = spotOf(new THREE.Vector3(...place), stage.view.getBoundingClientRect());
    return [x, y];
  },
};

try {
  beginStage();
} catch (error) {
  byId("loading").textContent = "This browser draws no WebGL: the scene isn't shown.";
}
for (const begin of [beginAlerts, beginInside, beginLanes, beginOwn, beginPeople, beginReplay]) begin();
frame();
loadOwn().then(connect);
