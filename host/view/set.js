// The dialog that sets an output. The server says whether it was accepted, with the controller's own reason if not.

import { make, write } from "./parts.js";

const at = (id) => document.getElementById(id);
let current = null;

const RANGES = {
  Unsigned8: "0 to 255", Unsigned16: "0 to 65535", Unsigned32: "0 to 4294967295", Unsigned64: "0 to 18446744073709551615",
  Integer8: "-128 to 127", Integer16: "-32768 to 32767", Integer32: "-2147483648 to 2147483647", Integer64: "-9223372036854775808 to 9223372036854775807",
  Float32: "a number such as 12.5", Float64: "a number such as 12.5", VisibleString: "a text", UnicodeString8: "a text",
};

/** What an output takes, in words. */
function hintOf(signal) {
  const unit = signal.unit ? ` in ${signal.unit}` : "";
  return `${signal.type}: ${RANGES[signal.type] ?? "as the value above is written"}${unit}`;
}

function fieldOf(signal) {
  if (signal.type === "Boolean") {
    const choice = (word) => make("input", { type: "radio", name: "value", value: word, checked: signal.raw === word, required: true });
    return ["true", "false"].map((word) => make("label", { class: "check" }, choice(word), word));
  }
  const isText = signal.type === "VisibleString" || signal.type === "UnicodeString8";
  const input = make("input", {
    type: "text", id: "set-value", name: "value", autocomplete: "off", spellcheck: "false", maxlength: "2700", required: true,
    "aria-describedby": "set-hint", value: isText ? plain(signal.raw) : signal.raw,
  });
  return [make("label", { for: "set-value" }, "Value"), input, make("span", { class: "muted", id: "set-hint" }, hintOf(signal))];
}

/** The text of a value in quotes, and the value of a text. */
const plain = (value) => (value?.startsWith('"') ? value.slice(1, -1).replace(/\\(.)/g, "$1") : value ?? "");
const quoted = (text) => `"${text.replace(/[\\"]/g, "\\$&")}"`;

export function openSet(signal) {
  current = signal;
  write(at("set-title"), `Set ${signal.name}`);
  const now = [signal.raw ?? "unknown", signal.unit].filter(Boolean).join(" ");
  write(at("set-now"), `${signal.text ? `${signal.text}. ` : ""}Now ${now}, ${signal.good ? "good" : "bad"}.`);
  write(at("set-answer"), "");
  at("set-field").replaceChildren(...fieldOf(signal));
  at("set-send").disabled = false;
  at("set").showModal();
  const first = at("set-field").querySelector("input:checked") ?? at("set-field").querySelector("input");
  first.focus();
  first.select?.();
}

async function send(value) {
  const body = JSON.stringify({ name: current.name, value });
  const answer = await fetch("set", { method: "POST", headers: { "Content-Type": "application/json" }, body });
  const { reason } = await answer.json();
  return answer.ok ? null : reason;
}

at("set-form").addEventListener("submit", async (event) => {
  event.preventDefault();
  const typed = new FormData(at("set-form")).get("value") ?? "";
  const isText = current.type === "VisibleString" || current.type === "UnicodeString8";
  at("set-send").disabled = true;
  write(at("set-answer"), "");
  try {
    const reason = await send(isText ? quoted(typed) : typed.trim());
    if (reason === null) {
      at("set").close();
      write(at("said"), `${current.name} is set`);
    } else write(at("set-answer"), `Not set: ${reason}`);
  } catch {
    write(at("set-answer"), "Not known whether it was set: the server of this page does not answer.");
  }
  at("set-send").disabled = false;
});
at("set-cancel").addEventListener("click", () => at("set").close());
