// The page of `nibcactus serve --page`, over the paths of docs/manual/http.md. All figures are the server's own text: the page
// adds nothing up, and reads numbers for charts alone.
"use strict";

const $ = (id) => document.getElementById(id);

// An element: h("p.soft#id", { attributes and listeners }, ...inside).
function h(what, about, ...inside) {
	const [tag, ...marks] = what.split(/(?=[.#])/);
	const made = /^(svg|path|line|rect|text)$/.test(tag) ? document.createElementNS("http://www.w3.org/2000/svg", tag) : document.createElement(tag);
	for (const mark of marks) mark[0] === "#" ? (made.id = mark.slice(1)) : made.classList.add(mark.slice(1));
	if (about?.constructor === Object) set(made, about);
	else inside.unshift(about);
	made.append(...inside.flat(9).filter((one) => one));
	return made;
}
function set(made, about) {
	for (const [key, value] of Object.entries(about)) {
		if (value === false || value === undefined) continue;
		if (key.startsWith("on")) on(made, key.slice(2), value);
		else if (key === "value") made.value = value;
		else made.setAttribute(key, value === true ? "" : value);
	}
}
const button = (what, text, onclick, about) => h("button" + what, { type: onclick ? "button" : "submit", onclick, ...about }, text);
const labelled = (label, input, kind = "") => h("div" + kind, h("label", { for: (input.firstElementChild || input).id || input.id }, label), input);
const on = (made, kind, act) => made.addEventListener(kind, act);
const put = (made, ...inside) => made.replaceChildren(...inside.flat(9).filter((one) => one));
const headed = (names, ...sums) => h("thead", h("tr", names.map((name) => h("th", name)), sums.map((name) => h("th.sum", name))));
const live = () => h("div", { "aria-live": "polite" });

// Long work gives the browser its turn every few milliseconds.
let sliceEnds = 0;
async function breathe() {
	if (performance.now() < sliceEnds) return;
	await new Promise((go) => {
		const { port1, port2 } = new MessageChannel();
		port1.onmessage = go;
		port2.postMessage(0);
	});
	sliceEnds = performance.now() + 10;
}
async function each(list, act, step = 100) {
	for (let at = 0; at < list.length; at++) {
		if (at % step === 0) await breathe();
		act(list[at], at);
	}
}

// A refused request: its error line and its status, 0 where no reply came.
const refusal = (status, line) => Object.assign(new Error(line), { status });
const server = { revision: null, isLost: false };
const isCurrent = ({ revision }) => revision !== undefined && revision === server.revision;
let queue = Promise.resolve();

// One request at a time, so that no reply is older than the one before it.
function ask(path, words = [], form) {
	const reply = queue.then(() => send(path, words, form));
	queue = reply.catch(() => {});
	return reply;
}

// Posts a form. `place` says in words where a line of the text is that an error line names.
const post = (path, form, place) => ask(path, [], form).catch((fault) => {
	throw Object.assign(fault, { place });
});

async function send(path, words, form) {
	const query = words.map((word) => "q=" + encodeURIComponent(word)).join("&"), slow = setTimeout(tellState, 1500, "Waiting for the server");
	let reply, bytes;
	try {
		reply = await fetch(path + (query && "?" + query), { cache: "no-store", ...(form && { method: "POST", body: new URLSearchParams(form) }) });
		bytes = await reply.arrayBuffer();
		server.isLost = false;
	} catch {
		server.isLost = true;
		throw refusal(0, form ? "no reply" : "no answer");
	} finally {
		clearTimeout(slow);
		tellState();
	}
	const text = new TextDecoder("utf-8", { ignoreBOM: true }).decode(bytes), revision = reply.headers.get("X-Revision");
	if (revision !== null && revision !== server.revision) {
		server.revision = revision;
		tellState();
		if (shown.revision !== revision) refresh();
	}
	if (!reply.ok) throw refusal(reply.status, text.trimEnd());
	return { text, revision };
}
function tellState(text) {
	$("state").textContent = text || (server.isLost ? "No answer; the page keeps trying" : server.revision ? "Revision " + server.revision : "Connecting");
}
function refresh() {
	if (shown.revision && !isLoading) show(true);
	shown.changed?.();
}

// Asks for the revision while the page is seen, five seconds after the last reply.
let asked = 0, timer = 0, isAsking = false;
function plan() {
	clearTimeout(timer);
	if (!document.hidden && !isAsking) timer = setTimeout(poll, Math.max(0, asked + 5000 - Date.now()));
}
async function poll() {
	isAsking = true;
	await queue;
	if (!document.hidden) {
		await ask("/accounts", ["date:0001-01-01"]).catch(() => {});
		asked = Date.now();
	}
	isAsking = false;
	plan();
}
on(document, "visibilitychange", plan);

const CAUSES = {
	form: "can't be read as part of an entry or a directive",
	date: "has a day that doesn't exist or can't be read; write it as 2024-01-31",
	number: "has a number that can't be read",
	account: "has an account name that can't be read",
	"status mark": "has a second status mark",
	directive: "isn't a directive that the program knows",
	quote: "has a symbol that needs double quotes, or a space in a number",
	"too long": "is in an entry or a directive that is too long",
	encoding: "isn't UTF-8",
	"two missing amounts": "begins an entry with two postings without amounts; put two spaces between an account and its amount",
	"not allowed": "is in an entry that assigns an amount and has a posting with a day of its own",
	range: "makes a number that is too large",
	// Of a record of a bank's file:
	bad: "has an amount, a mark or an account that can't be read, or a currency beside an amount with a symbol",
	"no date": "has no day that the rules can read (see date-format)",
	"no amount": "has no amount",
	"two amounts": "has two amounts",
	"not text": "isn't UTF-8",
};
const SENTENCES = [
	[/^no answer/, "The server doesn't answer. It may have ended, or all its workers may be busy."],
	[/^no reply/, "The connection broke before a reply came. The journal may have been changed: look there before you send this again."],
	[/^usage: (.*) with (.*)/, "“$1” and “$2” can't be used together."],
	[/^usage: (.*)/, "“$1” isn't an option that can be used here."],
	[/^term: (.*)/, "“$1” isn't a search word that can be read."],
	[/^pattern: (.*)/, "“$1” isn't a pattern that can be read. Write \\ before a sign that is meant as itself."],
	[/^range: (.*)/, "The sums of “$1” are too large to be shown."],
	[/^limit: (\d+) of (\d+)/, "That is too much: $1, where at most $2 is allowed."],
	[/^rule (pattern )?line (\d+)/, "The rule in line $2 can't be read."],
	[/^entry line (\d+).*/, "Line $1 doesn't begin an entry. An entry begins with its day, and its postings are indented."],
	[/^forbidden: need (\w+), have (\w+)/, "This server doesn't allow that: it was started with --allow $2, and this needs --allow $1."],
	[/^full.*/, "The store has reached its limit. Nothing was saved."],
	[/^disk fault/, "The server couldn't write to its disk. Nothing was saved."],
	[/^memory/, "The server ran out of memory. Nothing was saved."],
	[/^(body|head)/, "That is too long for one request. Nothing was saved."],
	[/^origin/, "The server takes this for a request from another site. A proxy before it has to pass on the Host field."],
	[/.*/, "The page and the server disagree. Load the page again."],
];

function sentence({ message, place }) {
	const text = message.replace(/^error: /, "");
	const [, what, number, kind, cause, other] = /^(line|record) (\d+): (unbalanced|assertion: wanted)? ?(.*?)(?:, found (.*))?$/.exec(text) || [];
	const where = what === "record" ? `Nothing was imported: record ${number} of the bank's file` : place?.(+number) || `Line ${number} of the journal`;
	if (kind === "unbalanced") return `${where} begins an entry that doesn't balance: its amounts sum to ${cause}, and not to zero.`;
	if (kind) return `${where} asserts a balance of ${cause}, but the account has ${other}.`;
	return what ? `${where} ${CAUSES[cause] || cause}.` : text.replace(...SENTENCES.find(([form]) => form.test(text)));
}

const notice = (kind, ...inside) => h("div.notice" + kind, inside);
function refused(fault) {
	if (fault.status === undefined) throw fault;
	return notice(".bad", h("p", sentence(fault)), fault.status > 0 && h("code", fault.message));
}
const done = (what, { revision }) => notice(".good", `${what} The journal is at revision ${revision}.`);
const isSame = ({ text }) => text.startsWith("unchanged");
const say = (...parts) => put($("said"), parts);

const SYMBOL = '(?:"[^"\\n]*"|[^\\x00-\\x23\\x26-\\x40\\x5b-\\x5e\\x60\\x7b-\\x7f]+)';
const AMOUNT = `(?:${SYMBOL} ?)?-?\\d+(?:[.,]\\d+)*(?: ?${SYMBOL})?`;
const PARTS = new RegExp(`^(${SYMBOL})? ?(-?)(\\d+(?:[.,]\\d+)*) ?(${SYMBOL})?$`);
const LIST_LINE = new RegExp(`^ *(${AMOUNT})(?:  ( *)([^ ].*))?$`);
const CELL = new RegExp(` *(${AMOUNT}(?:, ${AMOUNT})*)(?=  | ?$)`, "y");
const ONE = new RegExp(AMOUNT, "g");
const POSTING_LINE = new RegExp(`^(\\d{4}-\\d\\d-\\d\\d| {10}) (.*?) {2,}(${AMOUNT}) {2,}(${AMOUNT})$`);
const TOTAL_LINE = new RegExp(`^ {69,}(${AMOUNT})$`);

function readTree(text) {
	const rows = [], above = [];
	let sums = [], total = sums, isBelow = false;
	for (const line of text.split("\n")) {
		if (/^-+$/.test(line)) isBelow = true;
		const found = LIST_LINE.exec(line.trimEnd());
		if (!found) continue;
		sums.push(found[1]);
		total = sums;
		if (isBelow || !found[3]) continue;
		const level = found[2].length / 2;
		above.splice(level, Infinity, found[3]);
		rows.push({ level, part: found[3], name: above.join(":"), sums });
		sums = [];
	}
	return { rows, total };
}

function readCells(text) {
	const cells = [];
	CELL.lastIndex = 0;
	while (text.slice(CELL.lastIndex).trim()) {
		const found = CELL.exec(text);
		if (!found) return null;
		cells.push(found[1].match(ONE));
	}
	return cells;
}

// A statement. An account may have ` || ` in it, so a row is divided where what follows reads as cells.
function readStatement(text) {
	const lines = text.split("\n"), sections = [];
	const heads = lines[2].slice(lines[2].indexOf("||") + 2).trim().split(/ {2,}/);
	let net = [], last = "=";
	for (const line of lines.slice(4)) {
		if (/^[=-]+\+\+[=-]+$/.test(line)) last = line[0];
		let at = -1, cells = null;
		while (!cells && (at = line.indexOf(" || ", at + 1)) > 0) {
			cells = readCells(line.slice(at + 4));
			if (cells?.length && cells.length !== heads.length) cells = null;
		}
		if (!cells) continue;
		const name = line.slice(1, at).trimEnd();
		if (last === "=" && !cells.length) sections.push({ name, rows: [], totals: [] });
		else if (last === "=") net = cells;
		else if (name) sections.at(-1).rows.push({ name, cells });
		else sections.at(-1).totals = cells;
	}
	return { dates: /(\S+)\.\.(\S+)$/.exec(lines[0]), heads, sections, net };
}

// The postings of a register. An account has no two spaces in it.
async function readRegister(text) {
	const rows = [];
	let day = "", title = "";
	await each(text.split("\n"), (line) => {
		const more = TOTAL_LINE.exec(line), found = POSTING_LINE.exec(line);
		if (more) rows.at(-1).totals.push(more[1]);
		else if (found) {
			const names = /^(?:(.*) {2})?((?:[^ ]| (?! ))*)$/.exec(found[2]);
			if (found[1][0] !== " ") [day, title] = [found[1], (names[1] || "").trim()];
			rows.push({ day, title, account: names[2], amount: found[3], totals: [found[4]] });
		}
	});
	return rows;
}

function parts(amount) {
	const found = PARTS.exec(amount) || [];
	return { symbol: found[1] || found[4] || "", sign: found[2] || "", digits: found[3] || "0" };
}

// Numbers for charts. A symbol's amounts have the same decimals, so where none shows which mark is the decimal mark, leaving
// both out changes the scale alone.
function numbersOf(lists, symbol) {
	const mine = lists.map((list) => parts(amountOf(list, symbol)));
	let mark = "";
	for (const { digits } of mine) {
		const marks = digits.replace(/\d/g, ""), last = marks.at(-1);
		if (marks && (new Set(marks).size === 2 || digits.at(-4) !== last)) mark = last;
	}
	return mine.map(({ sign, digits }) => Number(sign + digits.split(mark || "?").map((part) => part.replace(/\D/g, "")).join(".")));
}

async function symbolsOf(lists) {
	const counts = new Map();
	await each(lists.flat(), (amount) => {
		const { symbol, digits } = parts(amount);
		if (symbol || digits !== "0") counts.set(symbol, (counts.get(symbol) || 0) + 1);
	});
	return [...counts].sort((a, b) => b[1] - a[1]).map(([symbol]) => symbol);
}
const amountOf = (amounts, symbol) => (amounts || []).find((amount) => parts(amount).symbol === symbol) || "0";

// Where all amounts of a table have one symbol, it isn't repeated in the cells.
function plainly([symbol, other]) {
	return (amounts) => money([amounts].flat().map((amount) => (symbol && other === undefined ? amount.replace(symbol, "").trim() : amount)));
}
const parted = (account) => account.split(/(?<=:)/).map((part) => [part, h("wbr")]);
const isMinus = (amount) => /-\d/.test(amount.replace(/"[^"]*"/g, ""));
const money = (amounts) => [amounts].flat().map((amount, _, all) => all.length === 1 && /^[^-]*[1-9]/.test(amount) ? amount : h("span" + (isMinus(amount) ? ".minus" : amount === "0" ? ".soft" : ""), amount));

const BLOCK = /^comment[ \t\r]*\n?$/, BLOCK_END = /^end comment[ \t\r]*\n?$/, GAP = /^[ \t\r]*(?:[;#*]|\n?$)/, INNER = /^[ \t\r]+[^ \t\r\n]/;

// The items of a text, as the server numbers them from 1.
async function cutItems(text) {
	const items = [];
	let at = 0, line = 1, row = "";
	const look = () => (row = text.slice(at, text.indexOf("\n", at) + 1 || text.length));
	const take = () => {
		at += row.length;
		line += 1;
		look();
	};
	look();
	while (row) {
		if (items.length % 100 === 0) await breathe();
		const from = at, item = { line, kind: BLOCK.test(row) ? "block" : GAP.test(row) ? "gap" : INNER.test(row) ? "stray" : /^\d/.test(row) ? "entry" : "head", head: row };
		take();
		if (item.kind === "block") {
			while (row && !BLOCK_END.test(row)) take();
			if (row) take();
		} else {
			const more = item.kind === "gap" ? GAP : INNER;
			while (row && more.test(row)) take();
		}
		item.text = text.slice(from, at);
		items.push(item);
	}
	return items;
}

// An entry as `print` writes it.
function readEntry(block) {
	const [first, ...lines] = block.split("\n");
	const [, day, sign, code, title = "", comment = ""] = /^(\S+)(?: ([!*]))?(?: \(([^)]*)\))?(?: ([^;]*?))?(?:  ; (.*))?$/.exec(first);
	const entry = { day, sign, code, title, comment, legs: [] };
	for (const line of lines) {
		const more = /^ {4};(?: (.*))?$/.exec(line), leg = /^ {4}(?:[!*] )?(.+?)(?: {2,}(?!; )(.*?))?(?:  ; (.*))?$/.exec(line);
		if (more) (entry.legs.at(-1) || entry).comment += "\n" + (more[1] || "");
		else entry.legs.push({ account: leg[1], amount: leg[2] || "", comment: leg[3] || "" });
	}
	return entry;
}
const bare = (account) => account.replace(/^[([](.*)[)\]]$/, "$1");

// The journal at one revision: its text with the items, and the entries by day with what `print -x` writes.
let held = {}, holding = null;
function journal() {
	if (isCurrent(held)) return held;
	holding ||= hold().finally(() => (holding = null));
	return holding;
}
async function hold() {
	const whole = await ask("/download"), printed = await ask("/journal", ["-x"]);
	if (whole.revision !== printed.revision) return hold();
	const items = await cutItems(whole.text), blocks = printed.text.split("\n\n"), entries = [];
	let year = "";
	await each(items, (item, index) => {
		const [, y = year, m, d] = /^(?:(\d{4})[-/.])?(\d{1,2})[-/.](\d{1,2})/.exec(item.head) || [];
		if (item.kind === "head") year = /^(?:Y[ \t]*|year[ \t]+)(\d{4})/.exec(item.head)?.[1] || year;
		if (item.kind === "entry") entries.push({ number: index + 1, revision: whole.revision, day: `${y}-${two(m)}-${two(d)}` });
	});
	entries.sort((a, b) => (a.day < b.day ? -1 : a.day > b.day ? 1 : 0));
	await each(entries, (entry, index) => Object.assign(entry, { block: blocks[index] }, readEntry(blocks[index])));
	return (held = { revision: whole.revision, text: whole.text, items, entries });
}
const linesOf = (text) => (text.match(/\n|[^\n]$/g) || []).length;

// Where an item of an old text is in a new one, or -1: in its place from the front or from the end, else the entry with the
// most lines of it.
function follow({ items: old }, index, { items: now }) {
	const same = (a, b) => old[a].text === now[b].text, was = old.length, is = now.length;
	let front = 0, back = 0;
	while (front < Math.min(was, is) && same(front, front)) front++;
	if (index < front) return index;
	while (back < Math.min(was, is) - front && same(was - 1 - back, is - 1 - back)) back++;
	if (index >= was - back) return index + is - was;
	if (was === is && now[index].kind === "entry") return index;
	const lines = new Set(old[index].text.split("\n").filter((line) => line.trim()));
	let best = -1, most = 0;
	for (let at = front; at < is - back; at++) {
		const count = now[at].kind === "entry" ? now[at].text.split("\n").filter((line) => lines.has(line)).length : 0;
		if (count > most) [best, most] = [at, count];
	}
	return best;
}

// Names a line of a new text in words, where an entry has its lines from `first` on, and `more` lines than before.
const places = (from, first, size, more) => (line) => {
	if (line >= first && line < first + size) return `Line ${line - first + 1} of your entry`;
	const item = from.items.findLast((one) => one.line <= line - (line < first ? 0 : more));
	return item?.kind === "entry" && `Line ${line} of the journal, in the entry “${item.head.trim()}”,`;
};
function placesAdded({ text, items }) {
	const isOpen = items.at(-1)?.kind === "block" && !/\nend comment[ \t\r]*\n?$/.test(text);
	return places({ items }, linesOf(text) + isOpen + (text !== "") + 1, Infinity, 0);
}
const placesChanged = (from, index, text) => places(from, from.items[index].line, linesOf(text), linesOf(text) - linesOf(from.items[index].text));

const wordsOf = (text) => ((text || "").match(/(?:"[^"]*"|'[^']*'|[^\s"'])+/g) || []).map((word) => word.replace(/"([^"]*)"|'([^']*)'/g, "$1$2"));
const two = (number, wide = 2) => String(number).padStart(wide, "0");
const iso = (date) => `${two(date.getFullYear(), 4)}-${two(date.getMonth() + 1)}-${two(date.getDate())}`;
function addMonths(month, count) {
	const all = month.slice(0, 4) * 12 + +month.slice(5, 7) - 1 + count;
	return `${two(Math.floor(all / 12), 4)}-${two((all % 12) + 1)}`;
}

// The first and the last month with postings, from a report's title; and the years between.
let spanHeld = {};
async function span() {
	if (isCurrent(spanHeld)) return spanHeld;
	const reply = await ask("/balance", ["-M", "--depth=1"]).catch(() => ask("/balance", ["-Y", "--depth=1"]));
	const [, first, last] = /(\d{4}-\d\d)-\d\d\.\.(\d{4}-\d\d)-\d\d/.exec(reply.text);
	const years = [];
	for (let year = +last.slice(0, 4); year >= +first.slice(0, 4); year--) years.push(two(year, 4));
	return (spanHeld = { revision: reply.revision, first, last, years });
}
function wordsOfDays(value, last) {
	if (/^\d{4}$/.test(value)) return ["-p", value];
	if (/^to/.test(value)) return ["-e", two(+value.slice(2) + 1, 4) + "-01-01"];
	return value === "12" ? ["-b", addMonths(last, -11) + "-01", "-e", addMonths(last, 1) + "-01"] : [];
}

// The view that is shown; one with a revision is shown again when the journal changes.
let shown = {}, isLoading = false, turn = 0, isKept = false;

function address(name, words) {
	const query = String(new URLSearchParams(Object.entries(words).filter(([, value]) => value)));
	return "#/" + name + (query && "?" + query);
}
const toAccount = (account, days) => ({ id: "a:" + account, href: address("register", { account, days: /^\d{4}$/.test(days) && days }) });

// Goes to a view; with something said it stays to be read there.
function go(to, ...said) {
	say(...said);
	isKept = said.length > 0 && to !== location.hash;
	if (to === location.hash) show();
	else location.hash = to;
}

// Shows the view that the address names; the one before stays until it is complete. `again` is the same view over a newer
// journal: it keeps the place and the focus.
async function show(again) {
	const mine = ++turn, main = $("main"), [path, query] = location.hash.slice(2).split("?");
	const name = VIEWS[path] ? path : "balance", view = { title: "Nibcactus" };
	isLoading = true;
	main.setAttribute("aria-busy", "true");
	try {
		await VIEWS[name](new URLSearchParams(query), view, name);
	} catch (fault) {
		view.parts = [refused(fault), button("#retry", "Try again", () => show())];
		view.revision = server.revision;
	}
	if (mine !== turn) return;
	const isFirst = !shown.name, focused = (again || name === shown.name) && main.contains(document.activeElement) && document.activeElement.id;
	shown = Object.assign(view, { name });
	isLoading = false;
	document.title = view.title + " – Nibcactus";
	const current = "#/" + ({ register: "balance", edit: "journal" }[name] || name);
	for (const link of document.querySelectorAll("nav a, #adding")) set(link, { "aria-current": link.getAttribute("href") === current ? "page" : "false" });
	const heading = h("h1", { tabindex: -1 }, view.title);
	put(main, h("div.head", heading, h("div.soft", view.aside)), view.bar, view.parts);
	main.removeAttribute("aria-busy");
	if (focused && $(focused)) $(focused).focus({ preventScroll: true });
	else if (!again && !isFirst) {
		scrollTo(0, 0);
		(view.focus || heading).focus({ preventScroll: true });
	}
	if (view.revision && server.revision !== view.revision) show(true);
}

function select(id, value, options) {
	const made = h("select", { id, name: id }, options.map(([value, text = value]) => h("option", { value }, text)));
	made.value = value;
	if (made.selectedIndex < 0) made.selectedIndex = 0;
	return made;
}

// The controls above a view: a change of a choice, or Enter in the search, goes there.
function tools(name, words, ...inside) {
	const to = (event) => {
		event.preventDefault();
		go(address(name, Object.fromEntries(new FormData(event.currentTarget))));
	};
	return h("form.tools", { role: "search", autocomplete: "off", onsubmit: to, onchange: (event) => event.target.id !== "search" && to(event) }, inside,
		labelled("Search words", h("input#search", { type: "search", name: "q", value: words.get("q"), placeholder: "food  desc:market  amt:>100  not:rent" }), ".wide"), h("button", "Show"));
}

// Rows from the last one on, more of them when the end is near.
function growing(place, all, make, count) {
	const rows = [...all].reverse();
	let at = 0;
	const watch = new IntersectionObserver((seen) => seen[0].isIntersecting && grow(), { rootMargin: "600px" });
	const grow = () => {
		place.append(...rows.slice(at, (at += count)).map(make));
		more.hidden = at >= rows.length;
		more.textContent = `Show more (${rows.length - at} left)`;
		watch.unobserve(more);
		if (!more.hidden) watch.observe(more);
	};
	const more = button(".plain", "", grow);
	grow();
	return more;
}
const folded = new Set();

async function balanceView(words, view) {
	const days = words.get("days"), { years } = await span(), isChange = /^\d/.test(days);
	view.title = isChange ? "Changes in " + days : "Balances";
	view.bar = tools("balance", words,
		labelled("Days", select("days", days, [["", "All days"], ...years.map((year) => ["to" + year, "Up to the end of " + year]), ...years.map((year) => [year, "Changes in " + year])])));
	const reply = await ask("/balance", ["--tree", ...wordsOfDays(days), ...wordsOf(words.get("q"))]);
	const { rows, total } = readTree(reply.text);
	const fold = (isFolded, some) => {
		for (const { name } of some) folded[isFolded ? "add" : "delete"](name);
		draw();
	};
	const lines = rows.map((row, index) => {
		const mark = rows[index + 1]?.level > row.level && button(".fold", "", () => fold(!folded.has(row.name), [row]), { id: "f:" + row.name, "aria-label": "Accounts below " + row.name });
		const line = h("tr" + (row.level ? "" : ".first-level"), h("th", h("div.line", mark || h("span.fold"),
			h("a", toAccount(row.name, days), row.part))), h("td.sum", money(row.sums)));
		line.style.setProperty("--level", row.level);
		return { line, mark, row };
	});
	const draw = () => {
		let from = Infinity;
		for (const { line, mark, row } of lines) {
			if (row.level <= from) from = Infinity;
			line.hidden = row.level > from;
			if (mark) set(mark, { "aria-expanded": String(!folded.has(row.name)) });
			if (mark && folded.has(row.name)) from = Math.min(from, row.level);
		}
	};
	const all = (id, text, isFolded) => button(".plain#" + id, text, () => fold(isFolded, rows));
	draw();
	view.revision = reply.revision;
	view.parts = rows.length ? [h("div.row", all("open", "Open all", false), all("close", "Close all", true)),
		h("table.tree", headed(["Account"], isChange ? "Change" : "Balance"), h("tbody", lines.map(({ line }) => line)),
			h("tfoot", h("tr", h("th", "Total"), h("td.sum", money(total)))))] : h("p.soft", "No account has a balance here. ", h("a", { href: "#/add" }, "Add an entry"), " or ", h("a", { href: "#/import" }, "import a bank's file"), ".");
}

function chart(numbers, label, draw, caption) {
	const low = Math.min(0, ...numbers), high = Math.max(0, ...numbers), place = h("div");
	let width = 0;
	new ResizeObserver(() => {
		const now = Math.round(place.clientWidth), height = now < 500 ? 150 : 190;
		if (!now || now === width) return;
		width = now;
		const y = (value) => (8 + (height - 30) * (high === low ? 1 : (high - value) / (high - low))).toFixed(1);
		put(place, h("svg", { viewBox: `0 0 ${width} ${height}`, height, role: "img", "aria-label": label }, h("line", { x2: width, y1: y(0), y2: y(0) }), draw(width, height - 4, y)));
	}).observe(place);
	return h("figure", place, h("figcaption", caption));
}

// A step for each day with postings.
function balanceChart(rows, symbol, account) {
	const ends = rows.filter((row, index) => rows[index + 1]?.day !== row.day), times = ends.map((row) => Date.parse(row.day));
	const values = numbersOf(ends.map((row) => row.totals), symbol), first = times[0], all = times.at(-1) - first || 1;
	const tell = (word, value) => `${word} ${amountOf(ends[values.indexOf(value)].totals, symbol)} on ${ends[values.indexOf(value)].day}`;
	const text = tell("Highest", Math.max(...values)) + tell(", lowest", Math.min(...values));
	return chart(values, `Running balance of ${account}. ${text}`, (width, bottom, y) => {
		const path = values.map((value, index) => `${index ? "H" : "M"}${(((times[index] - first) / all) * width).toFixed(1)}${index ? "V" : " "}${y(value)}`).join("") + "H" + width;
		return [h("path.under", { d: `${path}V${y(0)}H0Z` }), h("path.curve", { d: path }), h("text", { y: bottom }, ends[0].day), h("text", { x: width, y: bottom, "text-anchor": "end" }, ends.at(-1).day)];
	}, text);
}

function barChart({ sections, net }, heads, symbol) {
	const size = heads.length, values = numbersOf([...sections.map(({ totals }) => totals), net].flatMap((list) => heads.map((_, at) => list[at])), symbol);
	return chart(values, `${sections[0].name}, ${sections[1].name} and net by columns; the table has the figures`, (width, bottom, y) => {
		const step = width / size, bar = Math.min(26, step * 0.34), middle = (at) => ((at + 0.5) * step).toFixed(1), every = Math.ceil(size / Math.floor(width / 74));
		const bars = (row) => heads.map((_, at) => {
			const value = values[row * size + at];
			return h("rect.bar" + row, { x: (at + 0.5) * step - bar * (1 - row), width: Math.max(1, bar - 1), y: Math.min(y(value), y(0)), height: Math.abs(y(value) - y(0)) });
		});
		return [bars(0), bars(1), h("path.net", { d: heads.map((_, at) => `${at ? "L" : "M"}${middle(at)} ${y(values[2 * size + at])}`).join("") }),
			heads.map((head, at) => (size - 1 - at) % every === 0 && h("text", { x: every > 1 ? (at + 1) * step : middle(at), y: bottom, "text-anchor": every > 1 ? "end" : "middle" }, head))];
	}, [h("span.key", sections[0].name), h("span.key.second", sections[1].name), h("span.key.third", "Net"), symbol]);
}

async function registerView(words, view) {
	const account = words.get("account") || "", days = words.get("days"), { years } = await span();
	view.title = account;
	view.bar = tools("register", words, h("input", { type: "hidden", name: "account", value: account }), labelled("Days", select("days", days, [["", "All days"], ...years.map((year) => [year])])));
	const reply = await ask("/register", ["-H", ...wordsOfDays(days), `acct:^${literal(account)}(:|$)`, ...wordsOf(words.get("q"))]);
	const rows = await readRegister(reply.text), body = h("tbody"), symbols = await symbolsOf(rows.map((row) => row.totals)), plain = plainly(symbols);
	await nameRows(rows, account.toLowerCase(), await journal());
	view.revision = reply.revision;
	view.parts = h("p.soft", "No posting fits.");
	if (!rows.length) return;
	view.aside = ["Balance ", h("span.total", money(rows.at(-1).totals))];
	const more = growing(body, rows, (row) => h("tr", h("td", row.day),
		h("td", row.entry ? h("a", { href: editAddress(row.entry) }, row.title || "(no description)") : row.title, row.account !== account && h("div.comment", parted(row.account))),
		h("td.sum", plain(row.amount)), h("td.sum", plain(row.totals))), 100);
	view.parts = [symbols.slice(0, 3).map((symbol) => balanceChart(rows, symbol, account)),
		h("table.register", headed(["Day", "Description"], "Amount", "Balance"), body), more];
}

// A register cuts descriptions and accounts. An entry of that day with a posting that agrees with what is shown, and has that
// amount, has the full ones.
async function nameRows(rows, account, { entries }) {
	const legs = new Map();
	await each(entries, (entry) => {
		for (const leg of entry.legs) {
			if (!(bare(leg.account) + ":").toLowerCase().startsWith(account + ":")) continue;
			if (!legs.has(entry.day)) legs.set(entry.day, []);
			legs.get(entry.day).push({ entry, account: bare(leg.account), amount: leg.amount.replace(/ [@=].*/, "") });
		}
	});
	const agrees = (shown, full) => shown === full || (shown.endsWith("..") && full.startsWith(shown.slice(0, -2)));
	const digits = (amount) => amount.replace(/[^\d-]/g, "").replace(/0+$/, "");
	await each(rows, (row) => {
		const list = legs.get(row.day) || [];
		const at = list.findIndex((one) => agrees(row.title, one.entry.title) && agrees(row.account, one.account) && digits(row.amount) === digits(one.amount));
		if (at < 0) return;
		const [{ entry, account }] = list.splice(at, 1);
		Object.assign(row, { entry, account, title: entry.title });
	});
}

async function statementView(words, view, name) {
	const isIncome = name === "income", { first, last, years } = await span();
	view.title = isIncome ? "Income statement" : "Balance sheet";
	const days = select("days", words.get("days"), [addMonths(first, 11) < last ? ["12", "Last 12 months"] : [], ["all", "All days"], ...years.map((year) => [year])].filter((one) => one[0]));
	const by = select("by", words.get("by"), [["-M", "Months"], ["-Q", "Quarters"], ["-Y", "Years"]]);
	view.bar = tools(name, words, labelled("Days", days), labelled("Columns", by));
	const reply = await ask(isIncome ? "/incomestatement" : "/balancesheet",
		[by.value, ...(isIncome ? ["-T", "-A"] : []), ...wordsOfDays(days.value, last), ...wordsOf(words.get("q"))]);
	const statement = readStatement(reply.text), { heads, sections, net, dates } = statement;
	const symbols = await symbolsOf([...sections.flatMap((section) => section.totals), ...net]), plain = plainly(symbols);
	const widths = heads.map((head) => head.length);
	const cells = (row) => heads.map((_, at) => {
		const cell = h("td.sum", plain(row ? row[at] || "0" : []));
		for (const { textContent } of cell.childNodes) widths[at] = Math.max(widths[at], textContent.length);
		return cell;
	});
	const totals = (label, row) => h("tr.totals", h("th", label), cells(row));
	const body = [];
	for (const section of sections) {
		const rows = [];
		await each(section.rows, ({ name, cells: own }) => rows.push(h("tr", h("th", h("a", toAccount(name, days.value), parted(name))), cells(own))), 10);
		body.push(h("tbody", h("tr.section", h("th", section.name), cells()), rows, totals("Total " + section.name.toLowerCase(), section.totals)));
	}
	const table = h("table.months" + (shown.name === name ? "" : ".new"), headed(["Account"], ...heads), body, h("tfoot", totals("Net", net)));
	const scroll = h("div.scroll", { tabindex: 0, role: "region", "aria-label": view.title }, table);
	view.revision = reply.revision;
	view.aside = dates && `${dates[1]} to ${dates[2]}`;
	view.parts = [symbols.slice(0, 3).map((symbol) => barChart(statement, isIncome ? heads.slice(0, -2) : heads, symbol)), scroll];
	// Beside the accounts stand whole columns, the last ones first.
	const root = getComputedStyle(document.documentElement), sizes = widths.map((width) => width / 2 + 0.6);
	const fit = () => {
		let room = $("main").firstChild.clientWidth / parseFloat(root.fontSize), at = sizes.length;
		while (at && room - sizes[at - 1] > 7) room -= sizes[--at];
		table.style.setProperty("--accounts", (at ? room + 0.1 : Math.min(room, 15)) + "rem");
	};
	table.style.setProperty("--columns", sizes.join("rem ") + "rem");
	fit();
	new ResizeObserver(() => {
		fit();
		scroll.scrollLeft = scroll.scrollWidth;
		setTimeout(() => (table.className = "months"));
	}).observe(view.bar);
}

const editAddress = ({ revision, number }) => `#/edit?at=${revision}.${number}`;
const commentOf = ({ comment }) => comment && h("div.comment", comment.trim());

function entryRow(entry) {
	return h("article.entry", h("time", entry.day),
		h("h2", entry.sign && h("span.soft", entry.sign + " "), entry.title || "(no description)", entry.code && h("span.soft", ` (${entry.code})`), commentOf(entry)),
		h("div.legs", entry.legs.map((leg) => h("div.leg", h("a", { href: address("register", { account: bare(leg.account) }) }, parted(leg.account)), h("span.sum" + (isMinus(leg.amount.replace(/ [@=].*/, "")) ? ".minus" : ""), leg.amount.replace(/(\d)[.,](?!\d)/g, "$1")), commentOf(leg)))),
		h("a.act", { href: editAddress(entry), "aria-label": `Edit ${entry.day} ${entry.title}` }, "Edit"));
}

async function journalView(words, view) {
	const sought = wordsOf(words.get("q"));
	view.title = "Journal";
	view.bar = tools("journal", words);
	let from = await journal(), entries = from.entries;
	if (sought.length) {
		// What the server prints of these is a part of what it prints of all, in the same order.
		const blocks = (await ask("/journal", ["-x", ...sought])).text.split("\n\n");
		from = await journal();
		entries = [];
		let at = 0;
		await each(blocks.slice(0, -1), (block) => {
			while (at < from.entries.length && from.entries[at].block !== block) at++;
			if (at < from.entries.length) entries.push(from.entries[at++]);
		});
	}
	const list = h("div"), more = growing(list, entries, entryRow, 60);
	view.revision = from.revision;
	view.aside = sought.length ? `${entries.length} of ${from.entries.length} entries` : "Entries: " + entries.length;
	view.parts = [list, !entries.length && h("p.soft", "No entry fits."), more];
}

// A text field with a list of what fits below it: the arrows choose, Enter or Tab takes, Escape closes.
function completing(input, find, taken) {
	const list = h("ul", { role: "listbox", id: input.id + "-list", "aria-label": "Suggestions" });
	let found = [], at = -1;
	set(input, { role: "combobox", "aria-controls": list.id, "aria-autocomplete": "list" });
	const mark = (to) => {
		at = to;
		[...list.children].forEach((line, index) => set(line, { "aria-selected": String(index === at) }));
		set(input, { "aria-expanded": String(!list.hidden), "aria-activedescendant": at < 0 ? "" : list.children[at].id });
		list.children[at]?.scrollIntoView({ block: "nearest" });
	};
	const close = () => {
		list.hidden = true;
		mark(-1);
	};
	const take = (index) => {
		input.value = found[index].value;
		close();
		taken?.(input.value);
		input.dispatchEvent(new Event("input", { bubbles: true }));
	};
	const open = () => {
		found = find(input.value.trim().toLowerCase()).filter(({ value }) => value && value !== input.value).slice(0, 8);
		put(list, ...found.map(({ value, note }, index) => h("li", { role: "option", id: `${list.id}${index}`, onmousedown: (event) => event.preventDefault(), onclick: () => take(index) }, value, h("span", note))));
		list.hidden = !found.length;
		mark(-1);
	};
	set(input, { onclick: open, onblur: close, oninput: (event) => event.isTrusted && open(), onkeydown: (event) => {
		const { key } = event, step = { ArrowDown: 1, ArrowUp: -1 }[key];
		if (step) {
			if (list.hidden) open();
			if (!list.hidden) mark(((at + 2 + step + found.length) % (found.length + 1)) - 1);
		} else if (list.hidden) return;
		else if (key === "Escape") close();
		else if (at >= 0 && /^(Enter|Tab)$/.test(key)) take(at);
		else return;
		if (key !== "Tab") event.preventDefault();
	} });
	close();
	return h("div.drop", input, list);
}

// A day from what was typed of it: a day of this month, a month and a day of this year, or a whole day.
function dayOf(text) {
	const now = new Date(), back = { today: 0, yesterday: 1 }[text];
	if (back !== undefined) return iso(new Date(now.getFullYear(), now.getMonth(), now.getDate() - back));
	const [, year = iso(now).slice(0, 4), month = iso(now).slice(5, 7), day] = /^(?:(?:(\d{4})[-/.])?(\d{1,2})[-/.])?(\d{1,2})$/.exec(text) || [];
	const whole = `${year}-${two(month)}-${two(day)}`;
	return day && iso(new Date(whole + "T12:00")) === whole ? whole : "";
}

// How well an account fits: it begins as typed; its parts begin with the typed parts, in order; it has it somewhere.
const literal = (text) => text.replace(/[\\.+*?()|[\]{}^$]/g, "\\$&");
function accountFits(name, typed) {
	const low = name.toLowerCase(), inOrder = new RegExp("(^|:)" + typed.split(":").map(literal).join("[^:]*:(.*:)?"));
	return low.startsWith(typed) ? 3 : inOrder.test(low) ? 2 : +low.includes(typed);
}

let adder = null;
async function addView(words, view) {
	const from = await journal(), payees = new Map(), accounts = new Map();
	await each(from.entries, (entry) => {
		payees.delete(entry.title);
		payees.set(entry.title, entry);
		for (const { account } of entry.legs) accounts.set(bare(account), (accounts.get(bare(account)) || 0) + 1);
	});
	adder ||= makeAdder();
	Object.assign(adder, { from, payees, accounts: [...accounts].sort((a, b) => b[1] - a[1]) });
	Object.assign(view, { title: "Add an entry", parts: adder.form, focus: adder.title });
}

function makeAdder() {
	const day = h("input#day", { value: dayOf("today") }), title = h("input#title"), sign = select("sign", "", [["", "Unmarked"], ["!", "! pending"], ["*", "* cleared"]]);
	const legs = h("div.legs-in"), result = live();
	const text = h("textarea.text#text", { oninput: () => turnTo(true) }), submit = button(".strong#send", "Add entry");
	let rows = [], isText = false, timer = 0;

	const full = () => rows.map((row) => row.map((input) => input.value.trim().replace(/\s+/g, " "))).filter((row) => row.join(""));
	const compose = () => {
		const size = Math.max(0, ...full().map(([account]) => account.length));
		return [day.value.trim(), sign.value, title.value.trim()].filter(Boolean).join(" ") + "\n" + full().map(([account, amount]) => `    ${account.padEnd(size)}  ${amount}`.trimEnd() + "\n").join("");
	};
	const changed = () => {
		if (!isText) text.value = compose();
		text.rows = Math.max(6, linesOf(text.value) + 1);
		put(result);
		clearTimeout(timer);
		if (isText || (title.value.trim() && rows[1][0].value.trim() && rows.some(([, amount]) => amount.value.trim()))) timer = setTimeout(check, 700);
	};
	const check = () => {
		const entry = text.value, tell = (part) => entry === text.value && put(result, part);
		post("/check", { entry }, placesAdded(adder.from)).then(() => tell(h("p.soft", "The server accepts this entry.")), (fault) => tell(refused(fault)));
	};
	const addRow = (name, hint) => {
		const at = rows.length, grow = () => account.value.trim() && account === rows.at(-1)[0] && addRow("", "");
		const account = h("input", { id: "account" + at, value: name, "aria-label": "Account " + (at + 1), oninput: grow });
		const amount = h("input.sum", { id: "amount" + at, placeholder: hint, "aria-label": `Amount ${at + 1}${hint && ", last time " + hint}` });
		rows.push([account, amount]);
		legs.append(completing(account, findAccounts), amount);
	};
	const fill = (from) => {
		rows = [];
		put(legs, h("label", { for: "account0" }, "Accounts"), h("label", { for: "amount0" }, "Amounts; one may be left out"));
		for (const leg of from) addRow(leg.account, leg.amount);
		while (rows.length < 2 || rows.at(-1)[0].value) addRow("", "");
	};
	const turnTo = (to) => {
		isText = to;
		fields.hidden = to;
		back.hidden = !to;
		changed();
	};
	const clear = () => {
		title.value = sign.value = "";
		fill([]);
		turnTo(false);
	};
	const findAccounts = (typed) => adder.accounts.map(([value]) => ({ value, rank: accountFits(value, typed) })).filter(({ rank }) => rank).sort((a, b) => b.rank - a.rank);
	const findPayees = (typed) => [...adder.payees].reverse().map(([value, entry]) => ({ value, note: entry.day, at: value.toLowerCase().indexOf(typed) }))
		.filter(({ at }) => at >= 0).sort((a, b) => (a.at > 0) - (b.at > 0));
	const findDays = (typed) => [["", dayOf(typed)], ["today", dayOf("today")], ["yesterday", dayOf("yesterday")], ["last entry", adder.from.entries.at(-1)?.day]]
		.map(([note, value]) => ({ note, value }));
	on(day, "blur", () => {
		day.value = dayOf(day.value.trim().toLowerCase()) || day.value;
		changed();
	});
	// The accounts of the latest such entry go into empty rows; its amounts are only shown.
	const takePayee = () => rows.flat().every((input) => !input.value) && fill(adder.payees.get(title.value).legs);
	const fields = h("div", { oninput: changed }, h("div.fields", labelled("Day", completing(day, findDays)), labelled("Description, or payee | note", completing(title, findPayees, takePayee), ".payee"), labelled("Status", sign)), legs);
	const back = button(".plain#back", "Back to the form", () => turnTo(false));
	const send = async () => {
		if (!isText && !full().length) return put(result, notice(".bad", "Fill in an account and an amount first."));
		const entry = text.value, reply = await post("/add", { entry }, placesAdded(await journal()));
		clear();
		go("#/add", done(`Added “${entry.split("\n")[0]}”.`, reply));
		title.focus();
	};
	const form = h("form.form", { autocomplete: "off", onsubmit: sending(submit, result, send) }, fields, labelled("As it will be written; you can change it here", text), result,
		h("div.row", submit, back, button(".plain", "Clear", clear)));
	clear();
	return { form, title };
}

// A listener that sends once at a time, and shows what was refused.
function sending(button, result, act, failed) {
	return async (event) => {
		event.preventDefault();
		if (button.disabled) return;
		button.disabled = true;
		try {
			await act();
		} catch (fault) {
			say();
			if (!(await failed?.(fault))) put(result, refused(fault));
		}
		button.disabled = false;
	};
}

// An opened entry keeps its form, and the journal that was seen.
const editors = new Map();
async function editView(words, view) {
	const [revision, number] = (words.get("at") || "").split("."), key = location.hash, from = await journal();
	if (!editors.has(key) && from.revision === revision && from.items[number - 1]?.kind === "entry") editors.set(key, makeEditor(key, from, number - 1));
	const parts = notice("", "The journal has changed since this link was made. Find the entry there again.");
	Object.assign(view, { title: "Change an entry", parts }, editors.get(key));
}

function makeEditor(key, base, index) {
	const lf = (text) => text.replaceAll("\r\n", "\n"), seen = lf(base.items[index].text);
	const text = h("textarea.text#text", { value: seen, rows: Math.max(7, linesOf(seen) + 2) }), label = h("label", { for: "text" }, "Entry");
	const told = h("div"), theirs = h("div"), sides = h("div#sides", theirs, h("div", label, text)), result = live();
	const save = button(".strong#save", "Save"), really = button(".danger#really", "Delete it for good", (event) => deletes(event), { hidden: true }), remove = button(".danger#delete", "Delete", () => {
		[remove.hidden, really.hidden] = [true, false];
		really.focus();
	});
	const leave = (...said) => {
		editors.delete(key);
		go("#/journal", ...said);
	};
	const send = async (content) => {
		const reply = await (index < 0 ? post("/add", { entry: content }, placesAdded(base))
			: post("/edit", { base: base.revision, item: String(index + 1), text: content }, placesChanged(base, index, content)));
		leave(isSame(reply) ? notice(".good", "Nothing was changed.") : done(content ? "Saved the entry." : "Deleted the entry.", reply));
	};
	const conflict = async (fault) => {
		if (fault.status !== 409) return false;
		const now = await journal(), at = follow(base, index, now), other = at < 0 ? "" : lf(now.items[at].text);
		[base, index] = [now, at];
		const heading = h("p", { tabindex: -1 }, at < 0 ? "This entry was deleted while you had it open." : other === seen
			? "The journal was changed while you had this entry open. The entry itself is as you saw it." : "This entry was changed while you had it open.");
		put(told, notice(".bad", heading));
		const lines = other.split("\n").map((line) => [seen.split("\n").includes(line) ? line : h("mark", line), "\n"]);
		put(theirs, h("h2", "In the journal now"), at < 0 ? h("p.soft", "Deleted") : h("pre.text", { tabindex: 0 }, lines));
		label.textContent = "Yours";
		sides.className = "sides";
		save.textContent = at < 0 ? "Add mine as a new entry" : "Save mine in its place";
		remove.hidden = at < 0;
		really.hidden = true;
		put(result);
		heading.focus();
		return true;
	};
	const deletes = sending(really, result, () => send(""), conflict), saves = sending(save, result, () => text.value.trim() ? send(text.value) : put(result, notice(".bad", "The entry is empty. To remove it, press Delete.")), conflict);
	const form = h("form", { onsubmit: saves }, told, sides, result, h("div.row", save, button("#leave", "Leave it as it is", () => leave()), remove, really));
	const changed = () => server.revision !== base.revision && put(result, notice("", "The journal has changed since you opened this entry. When you save, you will see both versions."));
	return { parts: form, focus: text, changed };
}

let importer = null;
const importView = (words, view) => Object.assign(view, { title: "Import a bank's file", parts: (importer ||= makeImporter()) });

function makeImporter() {
	let bytes = null, csv = "";
	const file = h("input#file", { type: "file" }), rulesFile = h("input#rules-file", { type: "file" }), name = h("input#name");
	const encoding = select("encoding", "utf-8", ["utf-8", "windows-1252", "iso-8859-2", "shift_jis", "utf-16le"].map((one) => [one]));
	const rules = h("textarea.text#rules", { rows: 9, placeholder: "fields date, description, amount\ncurrency EUR\naccount1 assets:bank" });
	const look = h("pre.text", { tabindex: 0, "aria-label": "The first lines of the file", hidden: true }), result = live();
	const send = button(".strong#send", "Import"), tell = (...parts) => put(result, ...parts);
	const decode = () => {
		if (!bytes) return;
		csv = new TextDecoder(encoding.value).decode(bytes);
		look.textContent = csv.slice(0, 3000).split(/\r\n?|\n/, 5).join("\n");
		look.hidden = false;
	};
	on(file, "change", async () => {
		if (!file.files[0]) return;
		bytes = await file.files[0].arrayBuffer();
		name.value = file.files[0].name;
		encoding.value = "utf-8";
		tell();
		decode();
		if (csv.includes("\ufffd")) {
			encoding.value = "windows-1252";
			decode();
			tell(notice("", "The file isn't UTF-8, so it is read as Windows-1252. Choose another encoding if letters are wrong."));
		}
	});
	on(encoding, "change", decode);
	// A file chosen again is read again.
	for (const one of [file, rulesFile]) on(one, "click", () => (one.value = ""));
	on(rulesFile, "change", async () => rulesFile.files[0] && (rules.value = await rulesFile.files[0].text()));
	const asks = async (path) => {
		const missing = !file.value ? "Choose the bank's file first." : !name.value.trim() ? "Give the file a name." : !rules.value.trim() && "Give the rules.";
		if (missing) return tell(notice(".bad", missing));
		const before = (await journal()).items.length;
		const reply = await post(path, { name: name.value.trim(), rules: rules.value, csv }, (line) => `With the new entries, line ${line} of the journal`);
		if (isSame(reply)) return tell(notice("", "Nothing in this file is new."));
		if (path === "/preview") return tell(notice("", h("p", "This would be added:"), h("pre", reply.text.trimEnd())));
		const added = (await journal()).entries.filter((entry) => entry.number > before);
		tell(done(`New entries: ${added.length}.`, reply), ...added.slice(0, 200).map(entryRow));
	};
	const preview = button("#try", "Preview", (event) => previews(event)), previews = sending(preview, result, () => asks("/preview"));
	return h("div", h("p.soft", "Rules say how a record becomes an entry. The next file of the same name adds only what is new."),
		h("form.form", { autocomplete: "off", onsubmit: sending(send, result, () => asks("/import")) }, h("div.tools", labelled("Bank's file", file, ".wide"), labelled("Encoding", encoding), labelled("Name", name, ".wide")), look,
			labelled("Rules, one a line", rules), h("div.tools", labelled("Or take the rules from a file", rulesFile, ".wide")), h("div.row", send, preview)), result);
}

const VIEWS = { balance: balanceView, register: registerView, income: statementView, sheet: statementView, journal: journalView, add: addView, edit: editView, import: importView };

on($("skip"), "click", (event) => {
	event.preventDefault();
	$("main").focus();
});
on(window, "hashchange", () => {
	if (!isKept) say();
	isKept = false;
	show();
});
show();
plan();
