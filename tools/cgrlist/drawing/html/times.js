// How times are spelled, and where the ticks of the axis are.

const DAY = 86400;
const dateOf = (second) => new Date(Math.round(second) * 1000);
const twoDigits = (number) => String(number).padStart(2, "0");
const dateSign = data.iso ? "-" : "/";

function monthDay(second) {
  const date = dateOf(second);
  return [date.getUTCMonth() + 1, date.getUTCDate()].map(twoDigits).join(dateSign);
}

const yearText = (second) => String(dateOf(second).getUTCFullYear());
const dayText = (second) => `${yearText(second)}${dateSign}${monthDay(second)}`;

function clockText(second) {
  const date = dateOf(second);
  return [date.getUTCHours(), date.getUTCMinutes(), date.getUTCSeconds()].map(twoDigits).join(":");
}

const timeText = (second) => `${dayText(second)}${data.iso ? "T" : "-"}${clockText(second)}${data.iso ? "Z" : ""}`;

const WHOLE_TIME = /^(\d{4})([-/])(\d\d)\2(\d\d)[-Tt ](\d\d):(\d\d):(\d\d)[Zz]?$/;

// The second of a time in either spelling; NaN if it is none, as of a day that its month doesn't have.
function secondOf(text) {
  const [isTime, year, , month, day, ...clock] = WHOLE_TIME.exec(text.trim()) ?? [];
  const date = new Date(isTime ? Date.UTC(Number(year), month - 1, day, ...clock) : NaN);
  return date.getUTCDate() === Number(day) && date.getUTCSeconds() === Number(clock[2]) ? date.getTime() / 1000 : NaN;
}

// The second of a time, which may be a day, or have no seconds; undefined if it is none.
function secondOfText(text) {
  return [text, `${text}-00:00:00`, `${text.replace(/z$/i, "")}:00`].map(secondOf).find((it) => !Number.isNaN(it));
}

// A time beside another one: without the day if that is the same.
const timeBeside = (second, other) => (dayText(second) === dayText(other) ? clockText(second) : timeText(second));

// The same, which may be broken before the clock.
function timeParts(second, other) {
  const text = timeBeside(second, other), clock = clockText(second) + (data.iso && text.endsWith("Z") ? "Z" : "");
  return text === clockText(second) ? [text] : [text.slice(0, -clock.length), element("wbr"), clock];
}

function durationText(seconds) {
  const parts = [
    [Math.floor(seconds / DAY), "d"],
    [Math.floor(seconds / 3600) % 24, "h"],
    [Math.floor(seconds / 60) % 60, "min"],
    [seconds % 60, "s"],
  ];
  const told = parts.filter(([count]) => count).map(([count, unit]) => `${count}\u00a0${unit}`);
  return told.join(" ") || "0\u00a0s";
}

// ---- Ticks ----

const STEPS = look.steps.map(([seconds, months]) => ({ seconds, months }));

// The least step whose labels have room.
function stepFor(seconds, width) {
  const isWide = (step) => (step.seconds / seconds) * width >= (step.seconds < 60 ? 74 : 58);
  return STEPS.find(isWide) || STEPS.at(-1);
}

function ticksIn(first, last, step) {
  return step.months ? monthTicks(first, last, step.months) : secondTicks(first, last, step.seconds);
}

function secondTicks(first, last, seconds) {
  const offset = seconds % (7 * DAY) === 0 ? 4 * DAY : 0; // weeks begin with Monday
  const ticks = [];
  let tick = Math.ceil((first - offset) / seconds) * seconds + offset;
  for (; tick <= last; tick += seconds) ticks.push(tick);
  return ticks;
}

function monthTicks(first, last, months) {
  const date = dateOf(first), ticks = [];
  let month = Math.floor((date.getUTCFullYear() * 12 + date.getUTCMonth()) / months) * months;
  for (; ; month += months) {
    const tick = Date.UTC(Math.floor(month / 12), month % 12, 1) / 1000;
    if (tick > last) return ticks;
    if (tick >= first) ticks.push(tick);
  }
}

function tickLabel(second, step) {
  if (step.months >= 12) return yearText(second);
  if (step.seconds >= DAY) return monthDay(second);
  return clockText(second).slice(0, step.seconds < 60 ? 8 : 5);
}

// What stands above a tick at which a day begins, or of dates a year.
function tickPeriod(second, step) {
  if (step.months >= 12) return "";
  if (step.seconds >= DAY) return monthDay(second) === `01${dateSign}01` ? yearText(second) : "";
  return second % DAY === 0 ? dayText(second) : "";
}
