// The bidder's page with scripts: bids are typed in a table, and each fault is shown beside its cell.
"use strict";

const at = (id) => document.getElementById(id);
const bidder = at("bidder").textContent;
const categories = [...document.querySelectorAll("#bids thead th")].slice(2).map((cell) => cell.textContent);
const body = at("bids").tBodies[0];
const started = Date.now();
const clock = Date.parse(at("left").dataset.now);
const closes = Date.parse(at("closes").dateTime);
// the form whose faults are shown: the input of each cell by its line and column
let shown = [];

const count = (number, thing) => `${number} ${thing}${number === 1 ? "" : "s"}`;

function make(name, text, more = {}) {
  const element = Object.assign(document.createElement(name), more);
  if (text !== undefined) element.textContent = text;
  return element;
}

// the time that is left, by the desk's clock

function showLeft() {
  const left = Math.floor((closes - clock - (Date.now() - started)) / 1000);
  const days = Math.floor(left / 86400);
  const pad = (value) => String(value).padStart(2, "0");
  at("left").textContent = left <= 0 ? "The time is over." :
    `${days ? `${count(days, "day")} and ` : ""}${Math.floor(left / 3600) % 24}:${pad(Math.floor(left / 60) % 60)}:${pad(left % 60)} left.`;
}

// the table of bids

function addRow() {
  const row = body.insertRow();
  const number = body.rows.length;
  row.append(make("th", String(number), {scope: "row"}));
  for (const name of ["Amount", ...categories]) {
    const input = make("input", undefined, {inputMode: "numeric", autocomplete: "off"});
    input.setAttribute("aria-label", `${name} of bid ${number}`);
    input.addEventListener("keydown", goOn);
    row.insertCell().append(input);
  }
  return row;
}

function goOn(event) {
  if (event.key !== "Enter") return;
  event.preventDefault();
  const row = event.target.closest("tr");
  (row.nextElementSibling || addRow()).querySelector("input").focus();
}

const quote = (value) => /[",\r\n]|^%/.test(value) ? `"${value.replaceAll('"', '""')}"` : value;

// The rows with a value as a text of CSV; `shown` gets the cells of each line and where they begin.
function formatBids() {
  const lines = [[bidder, ...categories].join(",")];
  shown = [[]];
  for (const row of body.rows) {
    const inputs = [...row.querySelectorAll("input")];
    const values = inputs.map((input) => input.value.trim());
    if (values.every((value) => value === "")) continue;
    const texts = values.map(quote);
    let column = 1;
    shown.push(texts.map((text, index) => {
      const cell = {input: inputs[index], column};
      column += text.length + 1;
      return cell;
    }));
    lines.push(texts.join(","));
  }
  return new Blob([lines.join("\n") + "\n"]);
}

function clearFaults() {
  for (const fault of body.querySelectorAll(".fault")) fault.remove();
  for (const input of body.querySelectorAll("[aria-invalid]")) {
    input.removeAttribute("aria-invalid");
    input.removeAttribute("aria-describedby");
  }
}

// Shows a fault beside its cell; false if it has none.
function showFault({place, fault}, number) {
  const match = /^(\d+)(?::(\d+))?$/.exec(place);
  const cells = match && shown[Number(match[1]) - 1];
  if (!cells || !cells.length) return false;
  const column = Number(match[2] || 1);
  const {input} = cells.filter((cell) => cell.column <= column).pop();
  const note = make("span", fault, {className: "fault", id: `fault-${number}`});
  input.after(note);
  input.setAttribute("aria-invalid", "true");
  input.setAttribute("aria-describedby", note.id);
  return true;
}

// calls

function call(method, path, data, headers = {}) {
  headers.Authorization = `Bearer ${at("key").value}`;
  return fetch(path, {method, body: data, headers, cache: "no-store"});
}

function over() {
  const number = at("over").value;
  return number === "-" ? {"If-None-Match": "*"} : {"If-Match": `"${number}"`};
}

const show = (time) => `${time.slice(0, 19).replace("T", " ")} UTC`;

async function look() {
  const reply = await call("GET", "form");
  if (!reply.ok) return;
  const now = await reply.json();
  const stands = now.stands;
  at("over").value = stands ? stands.number : "-";
  at("withdraw").hidden = !stands;
  at("stands").textContent = stands ?
    `Your form ${stands.number} stands: ${count(stands.bids, "bid")}, received at ${show(stands.received)} from session ${stands.session}, entry ${stands.entry}.` :
    "No form of yours stands.";
  at("calls").textContent = `You have ${count(now.calls_left, "call")} left.`;
}

function showReceipt(answer, receipt) {
  const entry = /entry (\d+)/.exec(receipt)[1];
  const link = make("a", "Save the receipt", {
    href: URL.createObjectURL(new Blob([receipt])), download: `receipt-${bidder}-${entry}.txt`,
  });
  const line = make("p", "Keep this receipt. ");
  line.append(link);
  answer.append(line, make("pre", receipt));
}

async function tell(reply) {
  const answer = at("answer");
  const said = await reply.json().catch(() => ({words: `status ${reply.status}`}));
  const number = reply.ok && said.number ? ` as number ${said.number}` : "";
  const words = said.answer ? `${said.answer[0].toUpperCase()}${said.answer.slice(1)}${number}: ${said.words}.` : said.words;
  answer.replaceChildren(
    make("h2", reply.ok ? "Done" : "Nothing was changed"),
    make("p", words, {className: reply.ok ? "good" : "bad"}),
  );
  const others = (said.faults || []).filter((fault, index) => !showFault(fault, index));
  for (const {place, fault} of others) answer.append(make("p", place ? `${place}: ${fault}` : fault, {className: "bad"}));
  if (said.faults && others.length < said.faults.length) answer.append(make("p", "The faults are beside their cells."));
  if (said.changes) answer.append(make("p", `Changed in reading: ${said.changes.join(", ")}.`));
  if (said.receipt) showReceipt(answer, said.receipt);
  await look();
  (body.querySelector("[aria-invalid]") || answer).focus();
}

async function hand(action, data) {
  clearFaults();
  const empty = at("empty").checked ? "&empty" : "";
  if (action === "check") return tell(await call("PUT", `form?check${empty}`, data));
  return tell(await call("PUT", `form?${empty}`, data, over()));
}

function fail(error) {
  at("answer").replaceChildren(make("p", `The desk can't be reached (${error.message}); send the same once more.`, {className: "bad"}));
  at("answer").focus();
}

function work(task) {
  const buttons = [...document.querySelectorAll("button")];
  for (const button of buttons) button.disabled = true;
  task().catch(fail).finally(() => { for (const button of buttons) button.disabled = false; });
}

at("upload").addEventListener("submit", (event) => {
  const action = event.submitter ? event.submitter.value : "send";
  if (action === "look") return;
  event.preventDefault();
  if (action === "withdraw") {
    if (confirm("Withdraw the form that stands?")) work(async () => tell(await call("DELETE", "form", undefined, over())));
    return;
  }
  shown = [];
  const file = at("file").files[0];
  if (file) work(() => hand(action, file));
  else at("file").focus();
});
at("more").addEventListener("click", () => addRow().querySelector("input").focus());
at("send").addEventListener("click", () => work(() => hand("send", formatBids())));
at("check").addEventListener("click", () => work(() => hand("check", formatBids())));
for (let number = 0; number < 3; number++) addRow();
at("typing").hidden = false;
showLeft();
setInterval(showLeft, 1000);
