// What statuses, causes of resets and items say, in the words of docs/FORMATS.md and docs/PROTOCOL.md.

const ENTRIES = ["set key", "attest", "input", "sample"];
// The table of words for faults, statuses and causes, faults.json, which the page holds.
const STATUSES = WORDS.statuses;
const CAUSES = WORDS.causes;

// What a `forged` says, by the item after it: under which key the accepted tag is, and who hadn't made it. `presented` names the packet
// of its line.
function sayForged(who, next, plan, presented) {
  const connection = name => plan.connections.get(name)?.text ?? name;
  const [kind, module, what, third] = next?.words ?? [];
  const epoch = kind === "open" ? Number(next.words[4] ?? 0) : Math.floor(Number(third) / 65536);
  const said = {
    attested: () => `as ${module}'s answer for boot ${what}, the deployer accepts a tag under ${module}'s key that ${module} hadn't made`,
    open: () => `as a set-key packet for its end of ${connection(what)} in epoch ${epoch}, ${module} accepts a tag under ${
        module}'s key that the deployer hadn't made`,
    take: () => `as event ${Number(third) % 65536} of ${connection(what)}, ${module} accepts a tag under the key of ${what} in its epoch ${
        epoch} that ${plan.connections.get(what)?.sender ?? "its sender"} hadn't made`,
  }[kind] ?? (() => `${who === "deployer" ? "the deployer" : who} accepts a tag that its rightful maker hadn't made`);
  return `${said()}${presented}; up to here the trace is a legal run of the sources`;
}

function sayItem({kind, words}, plan, next = null, presented = "") {
  const connection = name => plan.connections.get(name)?.text ?? name;
  const epoch = Math.floor(Number(words[3]) / 65536);
  switch (kind) {
    case "done": return `status ${words[2]}: ${STATUSES[words[2]]?.[1] ?? "?"}; ${words[3]} pieces`;
    case "ask": return `the deployer asks ${words[1]} for an answer to challenge ${words[2]}`;
    case "packet": return `a new packet of ${words[2]} bytes`;
    case "sense": return `the sensor has a new sample`;
    case "read": return `${words[1]} read the sample of its sensor`;
    case "out": return `${words[1]} wrote ${words[2]} to its actuator`;
    case "reset": return `${CAUSES[words[2]] ?? "?"}; memory and sections of node ${words[1]} are gone`;
    case "take":
      return `event ${Number(words[3]) % 65536} of ${connection(words[2])}${
          epoch ? `, epoch ${epoch}` : ""}, value ${words[4]}`;
    case "open":
      return `${words[1]} can ${words[3] === "from" ? "send on" : "take from"} ${connection(words[2])}`;
    case "raw":
    case "drain":
      return plan.isTrouble({kind, words}) ? "not by the device's driver" :
                                             "the device has no driver: any code may use it";
    case "forged": return sayForged(words[1], next, plan, presented);
    case "skip":
      return "refused: it meets a section, a device or the end of memory, interrupts are disabled, or there is no such packet";
    case "busy": return "refused, since a module runs";
    case "budget": return "1,000,000 steps were taken, and a module still runs";
    case "protect":
      return words[2] === "-" ? "a section of other code" : "the deployed module is protected";
    case "vouch": return "the module made its answer to this challenge";
    case "attested": return `the deployer accepted the answer, for boot ${words[2]}`;
    case "denied": return "the deployer didn't accept the answer";
  }
  return "";
}
