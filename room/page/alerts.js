/* What is said over the picture: that the viewer is stopped, that the server is gone, what is wrong with the scene. */
import { byId, element, state, write } from "./core.js";
import { ask, connectAgain, on } from "./link.js";

function showFault(fault) {
  byId("fault").hidden = !fault;
  if (!fault) return;
  write(byId("fault-place"), fault.line ? `${fault.file}:${fault.line}` : fault.file);
  write(byId("fault-what"), fault.what);
  write(byId("fault-text"), fault.text.trim());
}

/* What was left out of a scene's file that isn't read whole, behind a fold. */
function showLeft({ count, left }) {
  state.partly = Boolean(count);
  byId("left").hidden = !left.length;
  write(byId("left-count"), count);
  byId("left-lines").replaceChildren(...left.map(([line, what]) => {
    const item = element("li", "", what);
    item.value = line;
    return item;
  }));
}

/* How many agree, in words; the number and the digest are for who points at it. */
function showAgreement(status) {
  const badge = byId("badge"), running = status.viewers.filter((viewer) => viewer.runs);
  const equal = status.equal_at !== null && status.equal_at !== undefined;
  const alone = status.viewers.length > 1 ? `1 of ${status.viewers.length} viewers runs`
    : running.some((viewer) => viewer.who === state.who) ? "Only you so far" : "One viewer so far";
  const all = running.length === 1 ? alone : `All ${running.length} viewers agree`;
  const told = status.replay ? "What happened" : status.different ? "Viewers differ!"
    : !running.length ? "No viewer runs" : equal ? all : "Comparing …";
  write(badge, told);
  badge.className = status.different ? "different" : equal && running.length > 1 ? "equal" : "";
  const digest = (running.find((viewer) => viewer.at === status.equal_at) || {}).digest;
  badge.title = equal ? `All see the same: equal at input ${status.equal_at}${digest ? `, digest ${digest}` : ""}` : "";
  byId("bad").hidden = !status.channel || !Object.values(status.channel).some((share) => share > 0);
}

on("status", (status) => {
  state.status = status;
  showAgreement(status);
  byId("full").hidden = !status.full;
  const mine = status.viewers.find((viewer) => viewer.who === state.who);
  const stopped = Boolean(mine && !mine.runs);
  byId("stopped").hidden = !stopped || Boolean(state.replay);
  document.body.classList.toggle("grey", stopped && !state.replay);
});
on("fault", ({ fault }) => showFault(fault));
on("left", showLeft);
on("open", () => {
  byId("gone").hidden = true;
  document.body.classList.remove("lost");
});
on("gone", () => {
  byId("gone").hidden = false;
  Object.assign(byId("badge"), { textContent: "Not connected", className: "", title: "" });
  document.body.classList.add("lost");
});
on("refused", ({ status, why }) => {
  byId("gone").hidden = true;
  byId("asks").hidden = false;
  byId("word").hidden = status !== 401;
  write(byId("asks-what"), status !== 401 ? `There is no place: ${why}.`
    : why === "password" ? "This room has a password." : "That isn't the password.");
  if (status === 401) byId("word").focus();
});
on("you", () => { byId("asks").hidden = true; });

export function beginAlerts() {
  byId("start").addEventListener("click", () => ask("start", {}));
  byId("asks").addEventListener("submit", (event) => {
    event.preventDefault();
    connectAgain(byId("word").hidden ? undefined : byId("word").value);
  });
}
