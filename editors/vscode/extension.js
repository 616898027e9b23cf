// Starts `sancus lsp` for deployments, schedules and properties.
const {workspace} = require("vscode");
const {LanguageClient} = require("vscode-languageclient/node");

const LANGUAGES = ["sancus", "sancus_schedule", "sancus_property"];
let client;

exports.activate = () => {
  const [command, ...args] = workspace.getConfiguration("sancus").get("server");
  const documentSelector = [...LANGUAGES.map(language => ({language})), {pattern: "**/*.toml"}];
  client = new LanguageClient("sancus", "Sancus", {command, args}, {documentSelector});
  return client.start();
};

exports.deactivate = () => client?.stop();
