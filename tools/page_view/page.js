// Asks for the last page and draws it, again and again.
"use strict";

const EACH = 250; // milliseconds from one question to the next
const WIDTH = 330; // pixels of a block of names, at least
const KINDS = ["HARD", "STATUS", "DELTA", "SOFT"];
const find = (id) => document.getElementById(id);
let shown = null; // what was drawn last

function made(tag, name, text) {
  const it = document.createElement(tag);
  it.className = name;
  it.textContent = text;
  return it;
}

function row([name, raw, kind, changed], isNew) {
  const it = made("tr", kind === "-" ? "" : kind, "");
  const number = made("td", raw === "-" ? "raw none" : changed && isNew ? "raw changed" : "raw", raw === "-" ? "\u2013" : raw);
  const cell = made("td", kind === "-" ? "none" : "", kind === "-" ? "\u2013" : "");
  if (kind !== "-") cell.append(made("span", "kind", kind));
  it.append(made("td", "", name), number, cell);
  return it;
}

function block(cells, isNew) {
  const table = document.createElement("table"), head = made("tr", "", "");
  head.append(made("th", "", "name"), made("th", "raw", "raw"), made("th", "", "class"));
  table.createTHead().append(head);
  table.createTBody().append(...cells.map((it) => row(it, isNew)));
  return table;
}

// The names in blocks beside each other, as many as have room and no more than a screen of rows needs.
function draw(cells, isNew) {
  const room = Math.max(1, Math.floor((innerWidth - 26) / (WIDTH + 18)));
  const rows = Math.max(8, Math.floor((innerHeight - 145 - document.querySelector("footer").offsetHeight) / 35));
  const blocks = Math.min(room, Math.max(1, Math.ceil(cells.length / rows)));
  const each = Math.ceil(cells.length / blocks);
  const tables = [];
  for (let at = 0; at < cells.length; at += each) tables.push(block(cells.slice(at, at + each), isNew));
  find("blocks").replaceChildren(...tables);
}

function note(told) {
  if (told.page && told.page.cells.length) return "";
  if (told.page) return "The page has no names.";
  return told.state === "ended" ? "The run ended before any page came." : "No page has come yet.";
}

function seen(told) {
  if (!told.page) return "";
  const age = told.state === "live" && told.age >= 2 ? `, the last ${Math.round(told.age)} s ago` : "";
  return `${told.count} page${told.count === 1 ? "" : "s"} seen${age}`;
}

function chip(state) {
  find("state").textContent = state;
  find("state").className = `chip ${state.split(" ")[0]}`;
  document.body.className = state.split(" ")[0];
}

function show(told) {
  chip(told.state);
  const isNew = !shown || shown.count !== told.count;
  const cells = told.page ? told.page.cells : [];
  document.title = told.page ? `${told.page.packet} \u00b7 ${told.state}` : `${told.state} \u00b7 live pages`;
  find("packet").textContent = told.page ? told.page.packet : "\u2013";
  find("edition").textContent = told.page ? told.page.edition : "\u2013";
  find("seen").textContent = seen(told);
  find("note").textContent = note(told);
  find("note").hidden = !note(told);
  const alarms = KINDS.map((kind) => [kind, cells.filter((it) => it[2] === kind).length]).filter((it) => it[1]);
  find("alarms").replaceChildren(...alarms.map(([kind, number]) => made("li", `kind ${kind}`, `${number} ${kind}`)));
  find("said").replaceChildren(...told.said.map((it) => made("li", "", it)));
  document.querySelector("footer").hidden = !told.said.length;
  if (isNew) draw(cells, true);
  shown = told;
}

async function ask() {
  try {
    const answer = await fetch("/state");
    if (!answer.ok) throw new Error(answer.status);
    show(await answer.json());
  } catch {
    chip("lost viewer");
    find("seen").textContent = "the viewer has ended: what stands here is its last page";
  }
  setTimeout(ask, EACH);
}

addEventListener("resize", () => shown && shown.page && draw(shown.page.cells, false));
ask();
