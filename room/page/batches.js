/* Solids of the same form and the same glow are a batch, which the renderer draws at once: its mesh has of each solid a
   place and a color. */

/* Layers: the renderer draws the first, rays see both. Solids that batches draw are in the second. */
const DRAWN_ITSELF = 0, IN_BATCH = 1;
const batches = new Map();
let home = null;

/* Where the meshes of batches are put. */
export function beginBatches(scene) {
  home = scene;
}

export function forgetBatches() {
  batches.forEach(discard);
  batches.clear();
}

/* Puts a solid into the batch of a key. */
export function addToBatch(key, mesh) {
  if (!batches.has(key)) {
    const { emissive, side } = mesh.material, look = { emissive, side, vertexColors: THREE.VertexColors };
    batches.set(key, { solids: new Set(), stale: true, room: 0, mesh: null, look: new THREE.MeshLambertMaterial(look) });
  }
  mesh.userData.batch = batches.get(key);
  mesh.userData.batch.solids.add(mesh);
}

export function takeFromBatch(mesh) {
  mesh.userData.batch.solids.delete(mesh);
  mesh.userData.batch.stale = true;
}

export function fillBatches() {
  for (const batch of batches.values()) if (batch.stale) fill(batch);
}

export function isShown(object) {
  for (let at = object; at; at = at.parent) if (!at.visible) return false;
  return true;
}

function discard(batch) {
  if (!batch.mesh) return;
  home.remove(batch.mesh);
  batch.mesh.geometry.dispose();
  batch.mesh = null;
}

/* A mesh with room for `room` solids of a batch. */
function makeRoom(batch, room) {
  discard(batch);
  const [{ geometry }] = batch.solids, own = new THREE.BufferGeometry();
  own.setIndex(geometry.index.clone());
  for (const name of ["position", "normal"]) own.setAttribute(name, geometry.attributes[name].clone());
  own.setAttribute("color", new THREE.InstancedBufferAttribute(new Float32Array(3 * room), 3));
  batch.mesh = Object.assign(new THREE.InstancedMesh(own, batch.look, room), { frustumCulled: false });
  batch.room = room;
  home.add(batch.mesh);
}

/* The normals of a batch are turned as its solids are. Where one is stretched that isn't enough, but for a box. */
function isStretched(mesh) {
  const size = new THREE.Vector3().setFromMatrixScale(mesh.matrixWorld), most = Math.max(size.x, size.y, size.z);
  return mesh.geometry.type !== "BoxBufferGeometry" && Math.min(size.x, size.y, size.z) < 0.999 * most;
}

function fill(batch) {
  batch.stale = false;
  if (batch.solids.size > batch.room) makeRoom(batch, Math.max(4, 2 * batch.solids.size));
  if (!batch.mesh) return;
  const { mesh: { instanceMatrix, geometry: { attributes: { color } } } } = batch;
  let count = 0;
  for (const solid of batch.solids) {
    const own = isStretched(solid) || solid.matrixWorld.determinant() < 0;
    solid.layers.set(own ? DRAWN_ITSELF : IN_BATCH);
    if (own || !isShown(solid)) continue;
    solid.matrixWorld.toArray(instanceMatrix.array, 16 * count);
    solid.material.color.toArray(color.array, 3 * count);
    count += 1;
  }
  instanceMatrix.needsUpdate = color.needsUpdate = true;
  batch.mesh.count = count;
  batch.mesh.visible = count > 0;
}
