// Steps from place to place, by keys, buttons and clicks.

let naming;

function go(place) {
  if (!data.records.length || !Number.isFinite(place)) return;
  here = Math.max(first, Math.min(last, Math.round(place)));
  const left = (here - first) * COLUMN, width = scroller.clientWidth - LABEL;
  if (left < scroller.scrollLeft + COLUMN || left > scroller.scrollLeft + width - 2 * COLUMN) {
    scroller.scrollLeft = left - width / 2;
  }
  find("place").value = here;
  clearTimeout(naming);
  naming = setTimeout(() => history.replaceState(null, "", `#${here}`), 300); // browsers take few in a short time
  tell();
  redraw();
}

function goToCall(step) {
  for (let place = here + step; place >= first && place <= last; place += step) {
    if (recordAt(place)[0] === "kevent") return go(place);
  }
}

const STEPS = {
  Home: () => go(first), End: () => go(last), ArrowLeft: () => go(here - 1), ArrowRight: () => go(here + 1),
  PageUp: () => goToCall(-1), PageDown: () => goToCall(1), w: () => wrongPlace && go(wrongPlace), t: () => turnTheme(),
};
const BUTTONS = {
  first: "Home", last: "End", back: "ArrowLeft", on: "ArrowRight", "call-before": "PageUp", "call-after": "PageDown",
  wrong: "w", theme: "t",
};

function turnTheme() {
  const root = document.documentElement;
  const isDark = (root.dataset.theme || (matchMedia("(prefers-color-scheme: dark)").matches && "dark")) === "dark";
  root.dataset.theme = isDark ? "light" : "dark";
  redraw();
}

function begin() {
  for (const [id, key] of Object.entries(BUTTONS)) find(id).addEventListener("click", STEPS[key]);
  document.addEventListener("keydown", (event) => {
    const isInput = ["INPUT", "SELECT"].includes(event.target.tagName);
    if (isInput || event.ctrlKey || event.altKey || event.metaKey || !STEPS[event.key]) return;
    event.preventDefault();
    STEPS[event.key]();
  });
  find("place").addEventListener("change", (event) => go(Number(event.target.value)));
  find("lines").value = data.lines.length > 40 ? "news" : "alive";
  find("lines").addEventListener("change", redraw);
  scroller.addEventListener("scroll", redraw);
  window.addEventListener("resize", redraw);
  window.addEventListener("hashchange", () => go(Number(location.hash.slice(1))));
  window.addEventListener("beforeprint", drawForPrint);
  window.addEventListener("afterprint", redraw);
  plot.addEventListener("click", (event) => {
    const at = event.clientX - plot.getBoundingClientRect().left;
    if (at > LABEL) go(first + Math.floor((at - LABEL + scroller.scrollLeft) / COLUMN));
  });
  overview.addEventListener("click", (event) => {
    go(first + Math.floor((event.offsetX / overview.clientWidth) * data.records.length));
  });
  find("legend").innerHTML = [
    ...BARS.map(([bar, text]) => `<span><svg width="26" height="16" aria-hidden="true">${bar}</svg>${text}</span>`),
    ...LEGEND.map(([kind, text]) => `<span><svg width="18" height="18" viewBox="-9 -9 18 18" aria-hidden="true">`
      + `${GLYPHS[kind]}</svg>${text}</span>`),
  ].join("");
  const part = first > 1 || last < data.total ? `places ${first} to ${last} of ` : "";
  find("counts").textContent = `${part}${data.total} records`;
  if (data.verdict) {
    find("verdict").hidden = false;
    find("verdict").textContent = data.verdict.text.split("\n")[0];
    find("verdict").classList.toggle("bad", Boolean(wrongPlace));
    find("wrong").hidden = !wrongPlace;
  }
  if (data.differs) {
    find("differs").hidden = false;
    find("differs").textContent = `From place ${data.differs} on the lines may be wrong: `
      + "kqstep answered otherwise than this page expects.";
  }
  const asked = Number(location.hash.slice(1));
  find("place").min = first;
  find("place").max = last;
  go(asked || wrongPlace || first);
}

begin();
