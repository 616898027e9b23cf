// What the page knows of the language, of deployments, schedules and traces, for tests/test_page.py: questions come in as JSON, and
// answers go out. The words are the scripts of the page.
import {readFileSync} from "node:fs";
import {runInNewContext} from "node:vm";

const ANSWERS = `
  const leftAt = source => {
    try {
      new Parser(source).module();
      return -1;
    } catch (error) {
      if (!(error instanceof NotInGrammar)) throw error;
      return error.token.at;
    }
  };

  // The rules of the language that a source breaks, each with its places; null if it isn't in the grammar.
  const rulesOf = source => {
    const tree = treeOf(source);
    return tree && Object.keys(LANGUAGE_RULES).map(rule => [rule, brokenPlaces(tree, rule).map(({at, what}) => [at, what])]);
  };

  // What the page makes of a module, whatever the program says of its deployment.
  const moduleOfPlan = (plan, module) => ({
    rules: rulesOf(module.source),
    sections: plan.sections(module).map(({begin, end}) => [begin, end]),
    variables: cellsIn(plan.tree(module.name) ?? {declared: []}).map(({kind, name, value}) => [kind, name, value]),
    ends: plan.ends(module.name),
  });

  // And of a whole text, of which the program's last line is known.
  const deploymentOf = ({text, last}) => {
    const faults = new Faults(text), {plan} = faults;
    return plan && {modules: plan.by.module.map(it => moduleOfPlan(plan, it)), told: faults.told(last)};
  };

  // Whether each line of a schedule has the words and fields of its act.
  const linesOf = ({text}) => {
    const plan = Deployment.of(text);
    return plan && readInput(text).lines.map(({text, words, kind}) => {
      if (!kind || kind === "#") return "";
      const fields = ACT_FIELDS[kind];
      if (!fields) return "S3";
      const isText = fields.at(-1).name === "TEXT";
      if (isText ? words.length <= fields.length : words.length !== fields.length + 1) return "S7";
      return badField(text, fields, plan).column ? "S4" : "";
    });
  };

  // The variables of a module after the items of a trace; none if it isn't protected then.
  const variablesOf = (values, module, count) => {
    const cells = values.stateAfter(module, count)?.cells ?? new Map();
    return Object.fromEntries([...cells].map(([name, cell]) => [name, [cell].flat()]));
  };

  const valuesOf = ({text, described, items}) => {
    const sources = Object.fromEntries(Deployment.of(text).by.module.map(({name, source}) => [name, source]));
    const rows = items.map((text, index) => ({index, item: {text, words: text.split(" "), kind: text.split(" ")[0]}}));
    const values = new Values({plan: new Plan(described), rows}, sources);
    return Object.fromEntries(Object.keys(sources).map(name => [name, variablesOf(values, name, rows.length)]));
  };

  const told = ({text, last}) => new Faults(text).told(last);

  ({leftAt, told, deploymentOf, linesOf, valuesOf});
`;

const code = process.argv.slice(2).map(it => readFileSync(it, "utf8")).join("\n");
const {words, asked} = JSON.parse(readFileSync(0, "utf8"));
const {TextDecoder, TextEncoder} = globalThis;
const answers = runInNewContext(`const WORDS = ${words};\n${code}\n${ANSWERS}`, {TextDecoder, TextEncoder});
process.stdout.write(JSON.stringify(asked.map(([what, about]) => answers[what](about))));
