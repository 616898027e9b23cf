// Which events are on their way in a session, as src/sancus/live.py has it: what a module sends waits, and has a name, as `e1.eye.logic`, by
// which a line took it, another gives it, and a comment drops it.

const EVENT_NAME = "e([0-9]+)\\.([a-z][a-z0-9_]*)\\.([a-z][a-z0-9_]*)";
const TAKEN = RegExp(`^take \\S+ (0x[0-9a-f]+) ${EVENT} as ${EVENT_NAME}$`);
const DONE_WITH = RegExp(`^(?:give (${EVENT_NAME}) \\S+|# drop (${EVENT_NAME}))$`);

class Network {
  constructor(writer) {
    this.writer = writer;
    this.waiting = [];
    this.taken = new Set();
    this.next = 1;
    this.seen = 0;
  }

  // Follows a line for people that was done, and what it became.
  note(text) {
    for (const line of this.writer.lines.slice(this.seen)) this.noteTake(wordsOf(line));
    this.seen = this.writer.lines.length;
    const taken = TAKEN.exec(text.trim()), done = DONE_WITH.exec(text.trim());
    if (taken) this.noteWaiting(Number(taken[1]), Number(taken[2]), taken[3], taken[4]);
    if (done) this.waiting = this.waiting.filter(it => it.name !== (done[1] ?? done[5]));
  }

  // Follows which events were taken, by whatever line.
  noteTake([act, node, at, length]) {
    if (act !== "take" || length !== String(EVENT)) return;
    for (const [sender, call] of this.writer.shown.calls)
      if (this.writer.nodeOf(sender) === node && call.places.includes(numberOf(at)))
        this.taken.add(`${sender} ${call.line} ${numberOf(at)}`);
  }

  noteWaiting(at, number, sender, receiver) {
    const call = this.writer.shown.calls.get(sender), pieces = call ? this.writer.pieces(sender, call) : [];
    const {connection} = pieces.find(it => it.at === at) ?? {};
    if (!connection || this.receiver(connection) !== receiver) return;
    this.waiting.push(this.event(number, sender, connection));
    this.next = Math.max(this.next, number + 1);
  }

  receiver(connection) { return this.writer.plan.connections.get(connection).receiver; }

  event(number, sender, connection) {
    const receiver = this.receiver(connection), node = this.writer.nodeOf(receiver);
    return {number, name: `e${number}.${sender}.${receiver}`, sender, receiver, connection, node, take: ""};
  }

  // The events that are in their windows and have to be taken, each with the line that does it.
  sent() {
    const calls = [...this.writer.shown.calls].sort((one, other) => one[1].line - other[1].line);
    const isNew = (sender, call, at) => !call.carried.has(at) && !this.taken.has(`${sender} ${call.line} ${at}`);
    const found = calls.filter(([, call]) => call.places.length).flatMap(
        ([sender, call]) => this.writer.pieces(sender, call).filter(it => isNew(sender, call, it.at)).map(it => ({sender, ...it})));
    return found.map(({sender, at, connection}, k) => {
      const event = this.event(this.next + k, sender, connection);
      return {...event, take: `take ${this.writer.nodeOf(sender)} 0x${at.toString(16)} ${EVENT} as ${event.name}`};
    });
  }

  // All that is on its way.
  events() { return [...this.waiting, ...this.sent()]; }
}
