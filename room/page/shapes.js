/* Geometries and looks of Shapes. */
import { color, field, listed, nodeIn } from "./core.js";

const WHITE = 0xffffff;
/* Geometries that several Shapes have, by what they are made of. */
const shared = new Map();

export function forgetShapes() {
  for (const geometry of shared.values()) geometry.dispose();
  shared.clear();
}

export const isShared = (geometry) => [...shared.values()].includes(geometry);

/* The look of a Shape: without a Material it is unlit and white (ISO/IEC 19775-1, 12.2.2 and 17.2.2.4). */
export function materialOf(shape) {
  const material = nodeIn(nodeIn(shape, "appearance"), "material");
  if (!material) return new THREE.MeshBasicMaterial({ color: WHITE });
  const glass = field(material, "transparency", 0);
  return new THREE.MeshLambertMaterial({
    color: color(material, "diffuseColor"), emissive: color(material, "emissiveColor"),
    transparent: glass > 0, opacity: 1 - glass, depthWrite: glass === 0,
  });
}

/* Which corners of a face each of its triangles has. A face that isn't convex is cut as its shadow on an axis' plane is. */
function trianglesOf(face, points, convex) {
  if (convex) return face.slice(2).map((_, k) => [0, k + 1, k + 2]);
  const at = (corner) => new THREE.Vector3(...points.slice(3 * corner, 3 * corner + 3)), normal = new THREE.Vector3();
  face.forEach((corner, k) => normal.add(at(corner).cross(at(face[(k + 1) % face.length]))));
  const sizes = normal.toArray().map(Math.abs), away = sizes.indexOf(Math.max(...sizes));
  const turn = normal.toArray()[away] < 0;
  const flat = face.map((corner) => at(corner).toArray()).map((point) =>
    new THREE.Vector2(point[(away + (turn ? 2 : 1)) % 3], point[(away + (turn ? 1 : 2)) % 3]));
  return THREE.ShapeUtils.triangulateShape(flat, []);
}

/* Whether faces have colors of their own, in place of the Material's. */
export const isPainted = (node) => node.kind === "IndexedFaceSet" && Boolean(nodeIn(node, "color"));

/* The number of the color of a corner: which stands at a place of coordIndex, in a face of a number. */
function paintOf(node) {
  const given = listed(node, "colorIndex"), each = field(node, "colorPerVertex", true);
  if (given.length) return (corner, place, face) => given[each ? place : face];
  return (corner, place, face) => (each ? corner : face);
}

function faceSet(node) {
  const points = listed(nodeIn(node, "coord"), "point"), colors = listed(nodeIn(node, "color"), "color");
  const corners = [], paints = [], paint = paintOf(node), convex = field(node, "convex", true), ccw = field(node, "ccw", true);
  const put = (list, from, number) => list.push(...[0, 1, 2].map((part) => from[3 * number + part] || 0));
  let face = [], start = 0, faces = 0;
  [...listed(node, "coordIndex"), -1].forEach((index, place) => {
    if (index >= 0) { face.push(index); return; }
    for (const each of face.length > 2 ? trianglesOf(face, points, convex) : []) {
      for (const k of ccw ? each : each.reverse()) {
        put(corners, points, face[k]);
        put(paints, colors, paint(face[k], start + k, faces));
      }
    }
    [face, start, faces] = [[], place + 1, faces + 1];
  });
  const geometry = new THREE.BufferGeometry();
  geometry.setAttribute("position", new THREE.BufferAttribute(new Float32Array(corners), 3));
  if (isPainted(node)) geometry.setAttribute("color", new THREE.BufferAttribute(new Float32Array(paints), 3));
  geometry.computeVertexNormals();
  return geometry;
}

/* The lines of a Text, as a picture on a plane (ISO/IEC 19775-1, 15.4.1 says where they stand). */
export function textMesh(node, ink) {
  const style = nodeIn(node, "fontStyle"), lines = listed(node, "string"), high = 64;
  const size = field(style, "size", 1), step = size * field(style, "spacing", 1);
  const [across = "BEGIN", along = "FIRST"] = listed(style, "justify");
  const canvas = document.createElement("canvas"), draw = canvas.getContext("2d");
  const font = `${high}px "DejaVu Sans", Verdana, sans-serif`;
  draw.font = font;
  const widths = lines.map((line) => draw.measureText(line).width), space = high * step / size;
  canvas.width = Math.ceil(Math.max(1, ...widths)) + 8;
  canvas.height = Math.ceil(high * 1.4 + space * Math.max(0, lines.length - 1));
  draw.font = font;
  draw.fillStyle = `#${ink.getHexString()}`;
  const part = { MIDDLE: 0.5, END: 1 }[across] || 0;
  lines.forEach((line, k) => draw.fillText(line, 4 + part * (canvas.width - 8 - widths[k]), high + k * space));
  const unit = size / high, wide = canvas.width * unit, tall = canvas.height * unit;
  const paint = { map: new THREE.CanvasTexture(canvas), transparent: true, side: THREE.DoubleSide, depthWrite: false };
  paint.map.minFilter = THREE.LinearFilter;
  const mesh = new THREE.Mesh(new THREE.PlaneGeometry(wide, tall), new THREE.MeshBasicMaterial(paint));
  const whole = lines.length * step;
  const first = { BEGIN: -0.8 * size, MIDDLE: whole / 2 - 0.8 * size, END: whole - step + 0.2 * size };
  mesh.position.set((0.5 - part) * (wide - 8 * unit), (first[along] || 0) + size - tall / 2, 0);
  return mesh;
}

const GEOMETRY = {
  Box: (node) => new THREE.BoxBufferGeometry(...field(node, "size")),
  Sphere: (node) => new THREE.SphereBufferGeometry(field(node, "radius"), 32, 20),
  Cone: (node) => new THREE.ConeBufferGeometry(field(node, "bottomRadius"), field(node, "height"), 32),
  Cylinder(node) {
    const radius = field(node, "radius");
    return new THREE.CylinderBufferGeometry(radius, radius, field(node, "height"), 32);
  },
};

/* The geometry of a node; equal ones are one. */
export function geometryOf(node, key) {
  if (node.kind === "IndexedFaceSet") return faceSet(node);
  if (!shared.has(key)) shared.set(key, GEOMETRY[node.kind](node));
  return shared.get(key);
}
