// The lessons: of each its text, the lines that the editor has after the lighting application's deployment, a question
// that is asked before they are run, and a task: an item, or what breaks a property. Of what is proved the program is asked too.

const BRIGHT = "var bright; on sense light(v) { if v > 100 { bright = 1; } } on out lamp(v) { if (v == 1) & !bright { fail; } }";

const LESSONS = [
  {
    title: "An honest run",
    text: `Three modules switch a lamp: \`eye\` reads a light sensor, \`logic\` compares the reading with 100, and \`lamp\` writes the bulb. They
share no memory: what one sends, somebody must carry to the next. Here that is you.

\`deploy all\` loads the modules, asks each whether it is what it should be, and hands over their keys. \`sample eye 120\` is a reading of 120, and
each \`carry\` takes an event from one module to another.`,
    lines: `deploy all
sample eye 120
carry eye logic
carry logic lamp
`,
    question: "What will lamp write to the bulb?",
    choices: ["120", "1", "nothing"],
    right: 1,
    because: "`logic` sends 1 for a reading above 100, and `lamp` writes what it takes: look at `out lamp 1` in the picture.",
    task: "Change the reading so that lamp writes 0, and run again.",
    property: "on out lamp(v) { if v == 0 { fail; } }",
  },
  {
    title: "A dropped packet",
    text: `Whoever carries the packets may also leave one out. Here it is bright and then dark, and the event by which \`lamp\` would hear of the dark
is never carried.`,
    lines: `deploy all
sample eye 120
carry eye logic
carry logic lamp
sample eye 20
carry eye logic
# carry logic lamp
`,
    question: "What was written last to the bulb at the end of this run?",
    choices: ["0, since it is dark", "1, from the first reading", "nothing"],
    right: 1,
    because: "`lamp` does nothing until an event comes, and nothing tells it that one is missing. Nobody promises that what is sent arrives.",
    task: "Drop the other event: make lamp write 0 without having written 1 before. Carry the second event, and not the first.",
    property: "var lit; on out lamp(v) { if v == 1 { lit = 1; } if (v == 0) & !lit { fail; } }",
  },
  {
    title: "A replay",
    text: `A packet that was carried is still there: \`give event.logic.lamp b\` puts the last one from logic to lamp into node b's memory again, and
\`call lamp 2\` has lamp look at it. Its tag is right, for logic made it.`,
    lines: `deploy all
sample eye 120
carry eye logic
carry logic lamp
give event.logic.lamp b
call lamp 2
`,
    question: "What will lamp do with the packet that it took before?",
    choices: ["write 1 again", "refuse it", "reset its node"],
    right: 1,
    because: "Each event has a number, which the tag covers, and `lamp` takes no number twice: `done lamp 6 0` says so.",
    task: "A replay won't do, so make lamp write 1 twice by two events.",
    property: "var n; on out lamp(v) { if v == 1 { n = n + 1; if n == 2 { fail; } } }",
  },
  {
    title: "Code beside a module",
    text: `Now you run code on node b, beside \`lamp\`: \`asm\` puts an instruction at 0x800, \`set\` points the processor at it, and \`run\` takes
one step. The instruction writes 1 to the word 0x1000, which is the bulb.`,
    lines: `deploy all
asm b 0x800 mov #1, &0x1000
set b pc 0x800
run b 1
`,
    question: "What will happen?",
    choices: ["the bulb is lit", "nothing", "node b is reset"],
    right: 2,
    because: "The bulb's word is `lamp`'s own while lamp is loaded. Code beside it that writes there resets the node: `reset b write`.",
    task: "Light the bulb by code of your own. When isn't it lamp's? (The trace will have `raw bulb 1`.)",
    property: "on raw bulb(v) { if v == 1 { fail; } }",
  },
  {
    title: "A reset and renewal",
    text: `Anybody can reset a node. Its modules are gone then, and are loaded and asked again; \`take a 24 as late\` keeps an event that was sent
before, to be given after.`,
    lines: `deploy all
sample eye 120
carry eye logic
take a 24 as late
reset b
deploy lamp
give late b
call lamp 2
`,
    question: "What will the new lamp do with the event from before the reset?",
    choices: ["write 1", "refuse it", "reset its node again"],
    right: 1,
    because: "With `deploy lamp` the connection got a key of the next epoch: `open lamp down to 1`. What is of an earlier one is refused.",
    task: "Make the lamp write 1 after the reset of node b.",
    property: "var gone; on reset b { gone = 1; } on out lamp(v) { if gone & (v == 1) { fail; } }",
  },
  {
    title: "A forged tag",
    text: `A packet that nobody made: \`forge\` makes these bytes a packet, which claims to be event 0 for lamp, with the value 1. Its tag, the last
16 bytes, is right for a deployment without a \`secret\`, whose keys anybody can work out. This deployment has one.`,
    lines: `deploy all
forge 0300010000007c23ef3f44421e58e9dcce1bc2e29744f06c as made
give made b
call lamp 2
`,
    question: "What will lamp do?",
    choices: ["write 1", "refuse the packet", "reset its node"],
    right: 1,
    because: "Without the key nobody makes the right tag, but for a guess among 2 to the 128: `done lamp 7 0`.",
    task: "Put `#` before the first line of the deployment, `secret = ..`, so that its keys are public: `forged lamp` says what that means.",
    item: "forged lamp",
  },
  {
    title: "A property and its proof",
    text: `A run shows one schedule. What about all of them? A *property* watches the items of a run and says \`fail\` where something happens that
must not:

\`${BRIGHT}\`

It says: lamp is switched on only if some reading was above 100 before. \`./sancus holds\` asks whether any schedule breaks it.`,
    lines: `deploy all
sample eye 120
carry eye logic
take a 24 as late
sample eye 20
`,
    question: "Is there a schedule that switches the lamp on though no reading was ever above 100?",
    choices: ["yes, if the network is clever", "yes, with code on both nodes", "no"],
    right: 2,
    because: "No legal run of these sources does it, and so no attack, up to a forged tag: that is what `./sancus holds` proves.",
    proved: BRIGHT,
    task: "But the *last* reading may be dark. Go on from these lines, and make lamp write 1 after the reading 20.",
    property: "var bright; on sense light(v) { bright = v > 100; } on out lamp(v) { if (v == 1) & !bright { fail; } }",
  },
];
