/* The viewer's own camera: it begins at a Viewpoint, and is turned, moved and brought nearer without any input of the
   world. */
import { field, state, within } from "./core.js";
import { drawn } from "./scene.js";

/* What is nearer or farther isn't drawn; of a small or a large world other places are. */
const NEAR = 0.05, FAR = 5000;
export const camera = new THREE.PerspectiveCamera(45, 1, NEAR, FAR);
const head = new THREE.DirectionalLight(0xffffff, 0.65);
/* In a narrow window more is seen across than a Viewpoint asks for of the shorter side: this many times. */
const NARROW = 1.25;
const UP = new THREE.Vector3(0, 1, 0);
/* Which Viewpoint, of those that there are; whether the camera has left it; round what it turns; its angle of view; how large
   the world was when it stood there. */
const view = { chosen: 0, own: false, pivot: new THREE.Vector3(), angle: Math.PI / 4, aspect: 1, ball: new THREE.Sphere() };

export function beginCamera() {
  head.position.set(-0.3, 0.52, 0.8);
  camera.add(head, head.target);
  drawn.scene.add(new THREE.AmbientLight(0xffffff, 0.45), camera);
}

export const viewpoints = () => state.nodes.map((node, number) => ({ node, number }))
  .filter(({ node }) => node.kind === "Viewpoint");

/* The world's size and middle, as it is drawn. */
function ballOf() {
  return new THREE.Box3().setFromObject(drawn.content).getBoundingSphere(new THREE.Sphere());
}

const worldSize = () => view.ball.radius || 1;

function standAt({ node, number }, turn) {
  const thing = drawn.things.get(number)[0], [x, y, z, angle] = turn || [0, 0, 1, 0];
  view.angle = field(node, "fieldOfView", Math.PI / 4);
  thing.updateWorldMatrix(true, false);
  camera.position.setFromMatrixPosition(thing.matrixWorld);
  camera.quaternion.setFromAxisAngle(new THREE.Vector3(x, y, z).normalize(), angle);
}

/* Without a Viewpoint one stands before all that there is, above on the right. */
function standBefore(ball) {
  const away = new THREE.Vector3(0.42, 0.32, 1).normalize().multiplyScalar(3 * worldSize());
  view.angle = Math.PI / 4;
  camera.position.copy(ball.center).add(away);
  camera.lookAt(ball.center);
}

/* Stands at the Viewpoint that is chosen, unless the camera has left it. */
export function look() {
  const all = viewpoints().filter(({ number }) => drawn.things.has(number));
  const light = state.nodes.find((node) => node.kind === "NavigationInfo");
  head.visible = field(light, "headlight", true);
  if (view.own || !drawn.content) return;
  const at = Math.min(view.chosen, all.length - 1), ball = ballOf();
  view.ball = ball;
  if (all.length) standAt(all[at], state.orientations[at]);
  // What turned a Viewpoint may have been left out, and then nothing is seen from it.
  if (!all.length || (state.partly && !sees(ball))) standBefore(ball);
  const ahead = camera.getWorldDirection(new THREE.Vector3());
  const far = Math.max(Math.min(0.5, worldSize()), ball.center.clone().sub(camera.position).dot(ahead));
  view.pivot.copy(camera.position).addScaledVector(ahead, far);
  changed();
}

function sees(ball) {
  changed();
  const seen = new THREE.Matrix4().multiplyMatrices(camera.projectionMatrix, camera.matrixWorldInverse);
  return new THREE.Frustum().setFromMatrix(seen).intersectsSphere(ball);
}

export function choose(at) {
  view.chosen = at;
  view.own = false;
  look();
}

/* The world is another one: the camera begins at its first Viewpoint. */
export function forgetView() {
  view.chosen = 0;
  view.own = false;
}

export function fitCamera(aspect) {
  view.aspect = aspect;
  changed();
}

function changed() {
  const half = Math.tan(view.angle / 2) * Math.max(1, NARROW / view.aspect);
  camera.fov = within(2 * Math.atan(half) * 180 / Math.PI, 1, 150);
  camera.aspect = view.aspect;
  const reach = 4 * (camera.position.distanceTo(view.ball.center) + worldSize());
  const scale = Math.max(reach / FAR, Math.min(1, worldSize()));
  Object.assign(camera, { near: NEAR * scale, far: FAR * scale });
  camera.updateProjectionMatrix();
  camera.updateMatrixWorld(true);
  drawn.dirty = true;
}

function left() {
  view.own = true;
  changed();
}

const right = () => new THREE.Vector3(1, 0, 0).applyQuaternion(camera.quaternion);

/* Turns round the pivot, by parts of a turn. It never goes over the top. */
export function orbit(across, up) {
  const way = new THREE.Quaternion().setFromAxisAngle(UP, -2 * Math.PI * across);
  const tilt = new THREE.Quaternion().setFromAxisAngle(right(), -Math.PI * up);
  const turned = tilt.clone().multiply(camera.quaternion);
  if (UP.clone().applyQuaternion(turned).y > 0.08) way.multiply(tilt);
  camera.position.sub(view.pivot).applyQuaternion(way).add(view.pivot);
  camera.quaternion.premultiply(way).normalize();
  left();
}

/* Moves across what is seen, by parts of the window's height. */
export function pan(across, up) {
  const size = 2 * camera.position.distanceTo(view.pivot) * Math.tan(camera.fov * Math.PI / 360);
  const step = right().multiplyScalar(-across * size)
    .addScaledVector(new THREE.Vector3(0, 1, 0).applyQuaternion(camera.quaternion), up * size);
  camera.position.add(step);
  view.pivot.add(step);
  left();
}

/* Comes nearer, or goes away: the distance is multiplied. */
export function zoom(times) {
  const away = camera.position.clone().sub(view.pivot), far = away.length();
  away.setLength(within(far * times, Math.min(0.3, worldSize() / 10), Math.max(1000, 10 * worldSize())));
  camera.position.copy(view.pivot).add(away);
  left();
}

/* Where a place of the world is seen in the window, in pixels; and whether it is before the camera. */
export function spotOf(place, box) {
  const at = place.clone().project(camera);
  return { x: box.left + (at.x + 1) / 2 * box.width, y: box.top + (1 - at.y) / 2 * box.height, seen: at.z < 1 };
}

/* The ray through a place of the picture, from -1 to 1 across and up. */
export function rayAt(x, y) {
  const way = new THREE.Vector3(x, y, 0.5).unproject(camera).sub(camera.position).normalize();
  return new THREE.Ray(camera.position.clone(), way);
}
